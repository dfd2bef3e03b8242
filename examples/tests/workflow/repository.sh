# shellcheck shell=bash disable=SC2034,SC2154
# What examples/tests/workflow.t and examples/tests/workflow/image share: repositories with the
# package and two sites, and the steps of the workflow. They take build/lexicat, or the command that
# LEXICAT names, and package it with the programs; or what `make dist` left in build/dist.
. tests/lib/tap.sh
LEXICAT=$(realpath -m "${LEXICAT:-build/lexicat}")
export LEXICAT
own=$PWD/examples/tests/workflow
workflow=$PWD/examples/github/labels.yml
tools=$room/tools
tools/programs "$tools" "$PWD/bindings/python/src" "$PWD/build/lib"
package=$room/silkwaram_0-1_amd64.deb
needs "$LEXICAT" dpkg-deb flock /usr/bin/python3
/usr/bin/python3 -c 'import yaml' 2> /dev/null ||
    skip_all 'there is no yaml for /usr/bin/python3 (python3-yaml)'

# The package of the command: that of `make dist`, or one of the same files.
packaged() {
    local made=(build/dist/silkwaram_*_amd64.deb)
    if [ -f "${made[0]}" ]; then cp "${made[0]}" "$package"; return; fi
    install -D -t "$room/staged/usr/bin" "$LEXICAT" &&
        tools/programs "$room/staged/usr/bin" ../share/silkwaram ../lib/x86_64-linux-gnu &&
        install -d "$room/staged/usr/share/silkwaram" &&
        cp -R bindings/python/src/silkwaram "$room/staged/usr/share/silkwaram" &&
        install -d "$room/staged/DEBIAN" &&
        sed -e 's/@VERSION@/0-1/; s/@MAINTAINER@/nobody <>/; s/@SIZE@/1/; s/@LIBC@/2.34/; s/@ARCH@/amd64/' \
            packaging/control > "$room/staged/DEBIAN/control" &&
        dpkg-deb --root-owner-group --build "$room/staged" "$package"
}

# repository NAME: a new repository with the package and two sites that have nothing wrong.
repository() {
    local at=$room/$1 site
    mkdir -p "$at/.github" "$at/sites"
    cp "$package" "$at/.github"
    for site in paris lyon; do
        "$tools/lexicat-file" "$at/sites/$site.json" new --site "$site"
        echo '{"hi":{"en":"Hello {name}","de":"Hallo {name}","fr":"Salut {name}","x-note":"max 12"},
            "of":{"en":"%s of %s","de":"%2$s: %1$s","fr":"%s de %s"}}' |
            "$tools/lexicat-file" "$at/sites/$site.json" import --now 5
    done
}

# steps_in NAME COMMAND..: runs the steps in a repository, each by the command with the name of its
# file, and prints the number of the one that fails, or nothing. What it said is in the file step.
steps_in() {
    local at=$room/$1 step
    shift
    for step in "$room"/steps/*.sh; do
        (
            cd "$at" || exit
            set -a
            # shellcheck disable=SC1091
            . "$room/steps/env"
            "$@" "$step"
        ) > "$room/step" 2>&1 || { basename "$step" .sh; return; }
    done
}

# ends_at STEP NAME COMMAND..: this step is the one that fails in a repository; none if it is empty.
ends_at() {
    local wanted=$1 failed
    shift
    failed=$(steps_in "$@")
    [ "$failed" = "$wanted" ] && return
    echo "step '$failed' fails, not '$wanted': $(tail -n 20 "$room/step")"
    return 1
}

# The steps of the workflow, a file each.
steps() { /usr/bin/python3 "$own/steps.py" "$workflow" "$room/steps"; }
