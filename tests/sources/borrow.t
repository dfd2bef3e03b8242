#!/usr/bin/env bash
# Sees that a program which edits a catalogue while it still uses an answer borrowed from it is
# refused, by the borrow error E0502, and that the same program passes without that last use. It
# works on a copy of the sources, proves nothing and takes some 30 seconds. Needed: the Rattle kit,
# whose command is rt, or RT.
cd "$(dirname "$0")/../.." || exit 1
. tests/lib/tap.sh
rt=${RT:-rt}
needs "$rt"
program=tests/sources/edit_while_borrowed.rt.txt
crate=$room/crates/edit_while_borrowed

try() { # the program on standard input; `rt try` takes it
    cat > "$crate/src/lib.rt"
    (cd "$crate" && "$rt" try --test) 2>&1
}

is_refused() {
    local at
    at=$(grep -n 'catalogue.apply(' "$program" | cut -d : -f 1)
    if try < "$program" > "$room/refusal"; then
        echo 'it compiles'
        return 1
    fi
    grep "lib.rt:$at:.*borrow-e0502" "$room/refusal" && return
    cat "$room/refusal"
    return 1
}

without_last_use() { sed 's/Ok(matches!(reply, LentReply::Nothing))/Ok(true)/' "$program"; }

passes_without() {
    ! cmp "$program" <(without_last_use) > /dev/null && try < <(without_last_use)
}

mkdir -p "$crate/src"
python3 -c 'import shutil, sys
shutil.copytree("crates", sys.argv[1], dirs_exist_ok=True, ignore=shutil.ignore_patterns("out"))' \
    "$room/crates"
cp crates.txt "$room"
echo 'edit_while_borrowed: nego_core cell_core cata_core' >> "$room/crates.txt"
check 'an edit while an answer is borrowed is refused (E0502)' is_refused
check 'after its last use it is not' passes_without
end
