# shellcheck shell=bash disable=SC2034,SC2154
# What the tests of the package for PHP share. They take build/lib/libsilkwaram.so, or the file that
# SILKWARAM_LIBRARY names, and build/lexicat, or the command that LEXICAT names. Needed: PHP with
# FFI. A test sources this file after tests/lib/tap.sh.
own=bindings/php/tests
library=$(realpath -m "${SILKWARAM_LIBRARY:-build/lib/libsilkwaram.so}")
lexicat=$(realpath -m "${LEXICAT:-build/lexicat}")
needs "$library" "$lexicat" php
php -m | grep -qx FFI || skip_all 'there is no FFI in this PHP'
export SILKWARAM_LIBRARY=$library

with_ffi() { php -d ffi.enable=true "$@"; }
