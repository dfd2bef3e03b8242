#!/usr/bin/env bash
# Runs the examples in Python over the shared library: the exchange of two sites, and the web
# server, which readers ask while its file changes. Takes build/lib, and build/lexicat or the
# command that LEXICAT names. Needed: Python.
cd "$(dirname "$0")/../.." || exit 1
. tests/lib/tap.sh
. tests/library/library.sh
needs "$library" "$lexicat" python3
export SILKWARAM_LIBRARY=$library PYTHONPATH=$PWD/bindings/python/src

check 'the exchange in Python' python3 examples/exchange/exchange.py
write_site
check 'the web server in Python' python3 "$own/server.py" "$room/site.json"
end
