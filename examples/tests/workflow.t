#!/usr/bin/env bash
# shellcheck disable=SC2016,SC2154
# Tries examples/github/labels.yml, the workflow that checks the sites of a repository: its steps
# are run one by one, as GitHub has bash run them, in repositories made here. One is good; of the
# others each has one fault, and just the step that is for it fails. The package is unpacked by
# Debian's tools into a folder of its own. GitHub itself is not asked. examples/tests/workflow/image
# runs the same steps in an empty root, by hand.
#
# It takes what examples/tests/workflow/repository.sh says. Needed: dpkg-deb, flock of util-linux,
# and yaml for /usr/bin/python3 (Debian's python3-yaml).
cd "$(dirname "$0")/../.." || exit 1
. examples/tests/workflow/repository.sh
if PATH=/usr/bin:/bin command -v lexicat > "$room/said"; then
    skip_all "lexicat is installed as $(cat "$room/said"), and the package has to bring it"
fi

# For sudo and apt-get: what they are asked to install is unpacked.
mkdir "$room/programs"
printf '#!/bin/sh\nexec "$@"\n' > "$room/programs/sudo"
cat > "$room/programs/apt-get" << END
#!/bin/sh
[ "\$1 \$2 \$3 \$#" = 'install --yes --no-install-recommends 4' ] &&
    dpkg-deb -x "\$4" "$room/installed"
END
chmod 755 "$room/programs"/*

# Runs a step as GitHub does, where just these programs stand for those of its machine.
alone() {
    PATH=$room/installed/usr/bin:$room/programs:/usr/bin:/bin LEXICAT='' \
        bash --noprofile --norc -eo pipefail "$1"
}

good() {
    repository good
    ends_at '' good alone && echo "$(find "$room/steps" -name '*.sh' | wc -l) steps"
}

# faulty NAME STEP EDIT [LINE]: in a repository that was edited just this step fails, and says a
# line that begins so.
faulty() {
    rm -rf "$room/installed"
    repository "$1"
    (cd "$room/$1" && PATH=$tools:$PATH && eval "$3") || return
    ends_at "$2" "$1" alone || return
    grep -q "^${4:-}" "$room/step" && return
    echo "no line begins with $4: $(tail -n 20 "$room/step")"
    return 1
}

check 'the workflow has the steps that are run' steps
check 'the package of the command' packaged
check 'the steps over good sites' good
check 'no package' faulty no-package 01 'rm .github/*.deb'
check 'a site that is cut' faulty cut 02 'truncate -s -9 sites/paris.json'
check 'no sites' faulty no-sites 02 'rm sites/*.json'
check 'a missing label' \
    faulty missing 03 'lexicat-file sites/paris.json delete --id hi --lang fr'
check 'a missing label of the first site' \
    faulty missing-in-first 03 'lexicat-file sites/lyon.json put --id bye --lang en Bye'
check 'a wrong placeholder' \
    faulty placeholder 04 'lexicat-file sites/paris.json put --id hi --lang de "Hallo {nam}"'
check 'a wrong placeholder of the first site, after which the next is looked at' \
    faulty placeholder-in-first 04 'lexicat-file sites/lyon.json put --id of --lang fr "%s"' \
    sites/paris.json
check 'a text that is too long' \
    faulty too-long 04 'lexicat-file sites/paris.json put --id hi --lang de "Guten Tag {name}"'
check 'a blank at the end' \
    faulty blank 04 'lexicat-file sites/paris.json put --id of --lang fr "%s de %s "'
end
