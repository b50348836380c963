#!/bin/sh
# Reads each text of tests/original/, which Knuth's own library saved, with its check number and without, and compares what is answered
# with what is stored beside it.
program=$1
passed=0
failed=0

answers() {
    "$program" check "$1"
    { echo load c check; cat "$1"; echo .; echo load a any; cat "$1"; echo .; echo show a; } | "$program" run
}

for text in tests/original/*.gb; do
    if answers "$text" | cmp -s - "${text%.gb}.out"; then
        passed=$((passed + 1))
    else
        failed=$((failed + 1))
        echo "$text: it is read otherwise"
    fi
done
echo "kept: $passed passed, $failed failed"
test "$passed" -gt 0 && test "$failed" -eq 0
