#!/usr/bin/env bash
# Sees what the libraries for C show: the calls that their headers declare and no other name, the
# name of the shared library, and the version, which is that of the command. Takes build/lib, and
# build/lexicat or the command that LEXICAT names. Needed: nm and objdump of binutils, and Python.
cd "$(dirname "$0")/../.." || exit 1
. tests/lib/tap.sh
needs "$PWD/build/lib/libsilkwaram.a" nm objdump python3
. tests/library/library.sh

shows() { # the library, its header, and the words by which nm lists what it shows
    local shown=$1 header=$2
    shift 2
    nm "$@" --defined-only "$shown" | sed -n 's/^[0-9a-f]* [TDBRVW] \([^@]*\).*/\1/p' | sort |
        diff <(tools/calls names "include/$header" | sort) -
}

# The names by which programs are linked with the releases. A release keeps those of the one before,
# with the calls whose parameters stay as they were.
has_versions() {
    local of_2='version site_open site_share site_free'
    local of_3='refusal site_new site_put site_delete site_import site_update site_write
        site_status site_delta site_export site_missing site_outdated site_changes'
    # shellcheck disable=SC2086
    nm --dynamic --defined-only "$library" | sed -n 's/^[0-9a-f]* T sw_//p' | sort |
        diff - <({ printf '%s@@SILKWARAM_0\n' $of_2; printf '%s@@SILKWARAM_0.3\n' $of_3
            tools/calls names | sed 's/^sw_//' | grep -vxF "$(printf '%s\n' $of_2 $of_3)" |
                sed 's/$/@@SILKWARAM_0.4/'; } | sort)
}

has_soname() { objdump -p "$library" | grep -E '^ *SONAME +libsilkwaram\.so\.[0-9]+$'; }

has_one_version() { # the header's, and that of the command
    local number
    number=$(sed -n 's/^#define SW_VERSION //p' include/silkwaram.h)
    echo "lexicat $((number / 10000)).$((number / 100 % 100)).$((number % 100))" |
        diff - <("$lexicat" --version)
}

check 'the archive shows the calls of the header alone' \
    shows build/lib/libsilkwaram.a silkwaram.h --extern-only
check 'the shared library shows the calls of the header alone' \
    shows "$library" silkwaram.h --dynamic
check 'each call has the version of the release that had it first' has_versions
check 'the archive of the command shows its call alone' \
    shows build/lib/libsilkwaram-command.a silkwaram_command.h --extern-only
check 'the shared library of the command shows its call alone' \
    shows build/lib/libsilkwaram-command.so silkwaram_command.h --dynamic
check 'the shared library has its name' has_soname
if [ -x "$lexicat" ]; then
    check 'the header has the version of the command' has_one_version
else
    lacks 'the header has the version of the command' "${lexicat#"$PWD/"}"
fi
end
