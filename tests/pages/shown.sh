# shellcheck shell=bash disable=SC2154
# What the tests of pages share: each command line that a page shows ("$ .." in a block marked
# console) is run, a page at a time in a folder that has the repository's `data` alone, and what it
# prints is compared with the lines below it. A test sources this after tests/lib/tap.sh. It takes
# build/lexicat, or the command in the folder that LEXICAT_DIR names, and the programs of this
# repository.
#
# A page may have these marks, each on a line of its own:
#   <!-- needs: jq -->              the page is left out where the program is not installed
#   <!-- block needs: po2xliff -->  so is the next block; several programs are several words, and a
#                                   word with a slash is a path of this repository
#   <!-- file: NAME -->             the next block is a file, which the lines of the page use
# What is left out is a skip with the name of the program. Of a moment, as 2026-12-01 10:00, is
# compared that it is one.
folder=${LEXICAT_DIR:-$PWD/build}
needs "$folder/lexicat"
PATH="$(cd "$folder" && pwd):$PWD/build:$PATH"

# first_missing PROGRAM..: prints the first that is not there.
first_missing() {
    local it
    for it; do
        case $it in
            */*) [ -e "$it" ] || { echo "$it"; return; } ;;
            *) is_there "$it" || { echo "$it"; return; } ;;
        esac
    done
}

# read_blocks PAGE: the console blocks that can be run go to the file `shown` of the room, the files
# to the folder `at`.
read_blocks() {
    local page=$1 line missing='' name='' to=''
    while IFS= read -r line; do
        case $line in
            '<!-- block needs: '*' -->')
                line=${line#'<!-- block needs: '}
                # shellcheck disable=SC2086 # several programs are several words
                missing=$(first_missing ${line%' -->'})
                [ -z "$missing" ] || lacks "$page: a block that needs ${line%' -->'}" "$missing"
                ;;
            '<!-- file: '*' -->')
                name=${line#'<!-- file: '}
                name=${name%' -->'}
                ;;
            '```'*)
                if [ -n "$to" ]; then
                    to='' missing='' name=''
                elif [ -n "$name" ]; then
                    to=$room/at/$name
                elif [ "$line" = '```console' ] && [ -z "$missing" ]; then
                    to=$room/shown
                else
                    to=/dev/null
                fi
                ;;
            *) [ -z "$to" ] || printf '%s\n' "$line" >> "$to" ;;
        esac
    done < "$page"
}

# Runs the lines of `shown` in the folder `at`, and prints them as a page shows them.
run_lines() {
    local line last=0
    cd "$room/at" || exit 1
    while IFS= read -r line <&3; do
        printf '$ %s\n' "$line"
        eval "(exit $last); $line" < /dev/null
        last=$?
    done 3< <(sed -n 's/^\$ //p' "$room/shown")
}

without_moments() { sed -E 's/20[0-9]{2}-[0-9]{2}-[0-9]{2} [0-9]{2}:[0-9]{2}/MOMENT/g' "$1"; }

runs_as_shown() {
    (run_lines) > "$room/printed" 2>&1
    diff -u <(without_moments "$room/shown") <(without_moments "$room/printed") &&
        echo "$(grep -c '^\$ ' "$room/shown") commands"
}

programs_of() { # a page
    sed -n 's/^<!-- needs: \([a-z0-9]*\) -->$/\1/p' "$1"
    if grep -q '^\$ .*flock ' "$1"; then echo flock; fi
}

check_page() {
    local page=$1 needed
    # shellcheck disable=SC2046 # no program, or some
    needed=$(first_missing $(programs_of "$page"))
    if [ -n "$needed" ]; then
        lacks "$page" "$needed"
        return
    fi
    rm -rf "$room/at"
    mkdir "$room/at"
    ln -s "$PWD/data" "$room/at/data"
    : > "$room/shown"
    read_blocks "$page"
    check "$page" runs_as_shown
}
