#!/bin/sh
# How much stack a call takes, against the number that the header names; with a limit that every call breaks the program must fail.
set -eu
build/tests/stack
if build/tests/stack 1024 10 >build/tests/stack.log; then
    cat build/tests/stack.log
    echo 'the test of the stack does not fail above its limit'
    exit 1
fi
