#!/usr/bin/env bash
# shellcheck disable=SC1003,SC2016,SC2034,SC2154
# Tries lexicat-po with files that were cut anywhere, or are made to take long, and
# streams that are closed. It takes and needs what bindings/python/tests/tools/po/site.sh says.
cd "$(dirname "$0")/../../../../.." || exit 1
. bindings/python/tests/tools/po/site.sh

# A file that was cut anywhere gives no text: a line that was cut is refused, and the entries that
# are missing are counted.
cuts() {
    local line
    site
    imports 5 '{"ask":{"de":"Wollen Sie \"wirklich\" alle Dateien löschen?",
            "en":"Do you \"really\" want to delete all files?"},
        "bye":{"en":"Goodbye","x-note":"said at the door,\nto one person"},
        "files":{"de":["%d Datei","%d Dateien"],"en":["%d file","%d files"]},
        "menu":{"de":"Öffnen \\","en":"Open \\"}}'
    out sent.po
    /usr/bin/python3 "$own/cuts.py" > said 2> faulty || fault "a cut file is taken: $(cat faulty)"
    says "$(tail -n 1 said)"
    sed '/^msgctxt "menu"/,$d' sent.po > cut.po
    ends 7 lexicat-po in --lang de --source en --sent sent.po site.json cut.po
    reports '1 of 4 entries that were sent did not come back' \
        '"files": is the last entry of a file that lacks entries, so it may be cut'
    # What is no whole entry, and no rule.
    sed '/^msgstr "Wollen/d' sent.po > none.po
    ends 3 lexicat-po in --lang de --source en site.json none.po
    line=$(grep -n '^msgctxt "ask"' none.po | cut -d : -f 1)
    reports "none.po: the entry at line $line is not whole"
    sed 's/plural=(n != 1)/plural=n%0/' sent.po > zero.po
    ends 3 lexicat-po in --lang de --source en site.json zero.po
    reports 'zero.po: its Plural-Forms are not a plural rule'
    sed 's/plural=(n != 1)/plural=n%3/' sent.po > three.po
    ends 3 lexicat-po in --lang de --source en site.json three.po
    ends 2 lexicat-po out --lang de --source en --plural-forms 'nplurals=2; plural=n%0;' site.json
    sed 's/msgstr\[1\]/msgstr[2]/' sent.po > form.po
    ends 3 lexicat-po in --lang de --source en site.json form.po
    sed 's/Öffnen/\\q/' sent.po > escape.po
    ends 3 lexicat-po in --lang de --source en site.json escape.po
    : > empty.po
    ends 3 lexicat-po in --lang de --source en site.json empty.po
    put 5 empty en ''
    { cat sent.po; printf 'msgctxt "empty"\nmsgid ""\nmsgstr "x"\n'; } > empty.po
    ends 7 lexicat-po in --lang de --source en site.json empty.po
    reports '"empty": its label in en has an empty text, which cannot be a msgid'
    lexicat-file site.json delete --id empty --lang en
    # Through a pipe, in another encoding, with lines of another system, with a mark of its bytes,
    # and written by hand.
    iconv -f UTF-8 -t ISO-8859-1 sent.po \
        | sed 's/charset=UTF-8/charset=ISO-8859-1/; s/$/\r/' > latin.po
    ends 0 lexicat-po in --lang de --source en --sent sent.po site.json <(cat latin.po)
    prints '{}' '{}'
    { printf '\xef\xbb\xbf'; cat sent.po; } > marked.po
    ends 0 lexicat-po in --lang de --source en --sent sent.po site.json marked.po
    prints '{}' '{}'
    sed 's/^#\. said/#.said/; s/^#, c-format/#,c-format/; s/^msgstr "/msgstr"/' sent.po > hand.po
    ends 0 lexicat-po in --lang de --source en --sent sent.po site.json hand.po
    prints '{}' '{}'
    # Line ends that are none of a file.
    put 5 lines en $'a\u2028b\u0085c\u000d'
    put 5 lines de $'d\u2028e\u0085f\u000d'
    out sent.po
    ends 0 lexicat-po in --lang de --source en site.json sent.po
    prints '{}' '{}'
}

# timely COMMAND..: it is killed where it takes more than so many seconds of a processor.
timely() (
    ulimit -t 20
    exec "$@"
)

# Texts and lines that are made to take long.
long_ones() {
    local zeros blanks name
    site
    zeros=$(printf '0%.0s' {1..60000})
    blanks=$(printf ' %.0s' {1..100000})
    name=aa$(printf '_%.0s' {1..60})!.po
    put 5 zeros en "%$zeros"
    ends 0 timely lexicat-po out --lang de --source en site.json
    printf 'msgid ""\nmsgstr "Language: de\\n"\n\n#~%sx\n' "$blanks" > blanks.po
    ends 3 timely lexicat-po in --lang de --source en site.json blanks.po
    printf 'msgid ""\nmsgstr "Plural-Forms: nplurals=2; plural=n%sx\\n"\n' "$blanks" > rule.po
    ends 3 timely lexicat-po in --lang de --source en site.json rule.po
    printf 'msgid ""\nmsgstr "X: y\\n"\n' > "$name"
    ends 3 timely lexicat-po maps --source en "$name"
}

# Streams that are closed, and what is named beside an answer.
streams() {
    site
    ends 4 sh -c 'lexicat-po out --lang de --source en <&-'
    ends 4 sh -c 'lexicat-po out --lang de --source en site.json >&-'
    ends 0 sh -c 'lexicat-po out --lang de --source en site.json 2>&-'
    put 5 lines en a b c
    ends 7 sh -c 'lexicat-po out --lang de --source en site.json 2>&-'
    if grep -q '^lexicat-po' output; then fault "what is named goes to standard output"; fi
    ends 0 lexicat-po --version
    prints "lexicat-po $(sed -n 's/^__version__ = "\(.*\)"$/\1/p' "$PACKAGE/silkwaram/__init__.py")"
}

# It is interrupted when it reads: more than a pipe holds was written to it. (Python does not notice
# a signal between two reads that both succeed, so it gets more than one.)
interrupted() {
    site
    mkfifo slow
    set -m
    env --default-signal lexicat-po out --lang de --source en < slow > said 2>&1 &
    set +m
    exec 5> slow
    head -c 300000 /dev/zero | tr '\0' ' ' >&5
    while kill -INT -- "-$!" 2> kills; do sleep 0.5; done
    ends 130 wait $!
    [ ! -s said ] || fault "an interrupt is reported: $(cat said)"
}

try 'a file that is cut at each place' cuts
try 'texts and lines that are made to take long' long_ones
try 'streams that are closed' streams
try 'an interrupt' interrupted
end

