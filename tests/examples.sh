#!/bin/sh
# Runs each script of examples/ and tests/corpus/ and compares its transcript with the one that is stored beside it.
program=$1
passed=0
failed=0
for script in examples/*.sgb tests/corpus/*.sgb; do
    if "$program" run "$script" | cmp -s - "${script%.sgb}.out"; then
        passed=$((passed + 1))
    else
        failed=$((failed + 1))
        echo "$script: its transcript differs"
    fi
done
echo "examples: $passed passed, $failed failed"
test "$failed" -eq 0
