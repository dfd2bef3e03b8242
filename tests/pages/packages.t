#!/usr/bin/env bash
# Sees what packages say of themselves, without making them. The trial of the packages wants just
# the crates that PROVED.md names, so that a new crate does not stop it; all that is installed has
# one version; no file of a package names an address under a domain that is reserved (RFC 2606); and
# the page of the wheel, which is packed alone, has no link to a file beside it. Needed: git and its
# history, of which tools/dist takes the time, Python and awk.
cd "$(dirname "$0")/../.." || exit 1
. tests/lib/tap.sh

# The page of verdicts that name these crates, as `make dist` writes it.
page_of() { # names, one on a line
    {
        sed 's/$/: logic=proved functions=1/' "$1"
        printf '\nsum=0\n'
    } > "$room/verdicts"
    RT=true tools/dist --page "$room/verdicts"
}

names=$room/names
tools/proved-lines --names > "$names"

takes_the_page() {
    page_of "$names" > "$room/PROVED.md" && tools/dist-trial --pages 1 "$room/PROVED.md" &&
        echo "$(wc -l < "$names") crates"
}

refuses_a_part() {
    page_of <(sed '$d' "$names") > "$room/without-last.md" &&
        ! tools/dist-trial --pages 1 "$room/without-last.md"
}

version_in() { # a file, and an expression of sed for its version
    sed -nE "$2" "$1" | head -n 1
}

has_the_version() { # a file, and an expression of sed for its version
    local number version found
    number=$(version_in include/silkwaram.h 's/^#define SW_VERSION ([0-9]+)$/\1/p')
    version=$((number / 10000)).$((number / 100 % 100)).$((number % 100))
    found=$(version_in "$1" "$2")
    echo "it has the version '$found', and the header $version"
    [ "$found" = "$version" ]
}

finds_none() { # a command that lists faults
    ! "$@" 2>&1 | grep .
}

reserved='(@|://)[A-Za-z0-9.-]*\.(example|invalid|test|localhost)\b|noreply'
reserved_addresses() {
    grep -nErI "$reserved" packaging SECURITY.md README.md bindings/*/package.json \
        bindings/php/composer.json bindings/python/pyproject.toml
}

links_of_the_wheel() { grep -noE '\]\([^)#:"][^):]*\)' bindings/python/README.md; }

made='tools/dist-trial takes the page that tools/dist makes'
without='tools/dist-trial refuses a page without the last crate'
if git log -1 > /dev/null 2>&1; then
    check "$made" takes_the_page
    check "$without" refuses_a_part
else
    lacks "$made" 'history of git'
    lacks "$without" 'history of git'
fi
check 'the version of the sources' has_the_version crates/front_core/src/version.rt \
    's/^pub const VERSION: &str = "(.*)";$/\1/p'
check 'the version of the package for Python' has_the_version \
    bindings/python/src/silkwaram/__init__.py 's/^__version__ = "(.*)"$/\1/p'
check 'the version of the package for PHP' has_the_version bindings/php/composer.json \
    's/^ *"version": "(.*)",$/\1/p'
check 'the version that the package for PHP wants' has_the_version bindings/php/src/Library.php \
    "s/.* const VERSION = '(.*)';$/\1/p"
check 'no reserved address' finds_none reserved_addresses
check 'no link of the page of the wheel to what the wheel has not' finds_none links_of_the_wheel
end
