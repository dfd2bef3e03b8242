#!/usr/bin/env bash
# Runs each step of the pages for an editor, a programmer and an operator, as tests/pages/shown.sh
# says. The programs in Python and JavaScript that a page shows are run over the library in
# build/lib and the package in build/browser.
cd "$(dirname "$0")/../.." || exit 1
. tests/lib/tap.sh
. tests/pages/shown.sh
export PYTHONPATH=$PWD/bindings/python/src
if [ -e build/lib/libsilkwaram.so.0 ]; then
    export SILKWARAM_LIBRARY=$PWD/build/lib/libsilkwaram.so.0
fi
mkdir "$room/node_modules"
ln -s "$PWD/build/browser" "$room/node_modules/silkwaram"

for page in docs/{EDITING,SERVING,RUNNING}.md; do check_page "$page"; done
end
