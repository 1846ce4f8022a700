#!/usr/bin/env bash
# `make run`: the lines of the sample book, of another, and what it says where there is no book.
set -u
cd "$(dirname "$0")/../.." || exit 1
. tests/sh/check.sh
run=(env -u BOOK -u MAKEFLAGS make -s --no-print-directory run)

check 'sample' gives 0 crates/booklines/stdout "${run[@]}"
head -c 75 crates/booklines/stdin >'target/tests/cut book'
echo 'B 1' >target/tests/expected
check 'cut book' gives 0 target/tests/expected "${run[@]}" BOOK='target/tests/cut book'
check 'missing book' gives 2 /dev/null "${run[@]}" BOOK=target/tests/none
check 'missing book is told' says 'no book to read: target/tests/none'
verdict
