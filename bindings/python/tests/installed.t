#!/usr/bin/env bash
# Installs the Python package by pip in an environment of its own, and asks it.
#
# Takes build/lib/libsilkwaram.so, which `make library` builds, or the file that SILKWARAM_LIBRARY
# names. Needed: Python with venv and pip, which may fetch nothing.
cd "$(dirname "$0")/../../.." || exit 1
. tests/lib/tap.sh
export SILKWARAM_LIBRARY=${SILKWARAM_LIBRARY:-$PWD/build/lib/libsilkwaram.so}
needs "$SILKWARAM_LIBRARY" python3
name='the Python package in an environment of its own'

has_package() {
    PIP_NO_INDEX=1 "$room/venv/bin/pip" install --quiet --disable-pip-version-check \
        ./bindings/python || return 1
    # (its document is as another program writes it)
    (cd "$room" && PYTHONPATH='' venv/bin/python -c 'from silkwaram import Site
rows = ",".join(f"[\"greeting\",\"{tag}\",5,\"paris\",{at},[\"{text}\"]]"
                for at, (tag, text) in enumerate([("en", "Hello"), ("fr", "Bonjour")]))
site = Site.open("{\"cells\":[%s],\"kind\":\"site\",\"site\":\"paris\",\"version\":2}" % rows)
print(site.text("greeting", "fr-CA, en;q=0.5"))') | grep -x Bonjour
}

if python3 -m venv "$room/venv" > "$room/made" 2>&1; then
    check "$name" has_package
else
    lacks "$name" 'venv of Python'
fi
end
