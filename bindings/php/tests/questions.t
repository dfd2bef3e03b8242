#!/usr/bin/env bash
# Compares what the package for PHP answers with what the command does: questions of readers, edits
# and exchanges, which are those that the package for Node is asked, made of SEED. PHP_QUESTIONS
# says how many questions each call is asked (40), and PHP_SITES how many pairs of sites are edited
# (30). php.sh says what it takes and needs; besides Python.
cd "$(dirname "$0")/../../.." || exit 1
. tests/lib/tap.sh
. bindings/php/tests/php.sh
needs python3
asked=bindings/browser/tests

answered() { # a script, and how much it asks the command; what it prints goes to the room
    python3 "$asked/$1.py" "$lexicat" "$2" > "$room/$1.json"
}

says_seed
check 'the command is asked' answered questions "${PHP_QUESTIONS:-40}"
check 'questions in PHP' with_ffi "$own/answers.php" questions "$room/questions.json"
check 'the command edits' answered edits "${PHP_SITES:-30}"
check 'edits and exchanges in PHP' with_ffi "$own/answers.php" edits "$room/edits.json"
end
