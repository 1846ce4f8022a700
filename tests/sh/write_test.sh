#!/usr/bin/env bash
# examples/book.c: the sample text, whose book goes through `make run`; other texts; each kind of bad line; what can't be read or written.
set -u
cd "$(dirname "$0")/../.." || exit 1
. tests/sh/check.sh
. tests/sh/book.sh
program=target/tests/by-hand
text=target/tests/text
book='target/tests/by hand.book'
expected=target/tests/expected
plate='1000 100 30 500 3700 4500 0 0 0'
bars='refused 12, bars: a depth outside 1 to h-1 or taken, an area of 0, over 8 layers, or the deepest not below mid-height'
flange='refused 20, flange: hf not below h, bf below b, or bf over 2000'
few='too few numbers for b h fck fyk feq2 feq3 load Asw s, pairs of depth and area, and hf bf after the word flange'
run=(env -u BOOK -u MAKEFLAGS make -s --no-print-directory run)

# writes COMMAND..: whether the text on standard input gives just the book that the command prints.
writes() {
    "$@" >"$expected"
    gives 0 /dev/null "$program" - "$book" && [ ! -s target/tests/said ] && cmp "$book" "$expected"
}

# refuses LINE..: whether the text on standard input is refused with just these lines, no file is left, and one that was there stays.
refuses() {
    cat >"$text"
    printf 'book: %s\n' "$@" >"$expected"
    rm -f "$book"
    gives 1 /dev/null "$program" "$text" "$book" && cmp target/tests/said "$expected" && [ ! -e "$book" ] && echo old >"$book" &&
        gives 1 /dev/null "$program" "$text" "$book" && [ "$(<"$book")" = old ]
}

# fails WORDS WORD..: whether the program fails with these words on standard error.
fails() {
    local words=$1
    shift
    gives 2 /dev/null "$program" "$@" && says "$words"
}

# many COUNT: a text of so many plates.
many() {
    yes "$plate" | head -n "$1"
}

no_section() {
    numbers 4 0 0 16
    printf 'BOOK'
}

# Layers that fall, blanks of all kinds, lines that are passed over, and no end of the last.
untidy() {
    printf '\n \t\r\n  # 1 2 3\n\t300 300\t30  0500 0 -0 -1000000 0 0 160 50 30 3700 \r\n#'
}

# Each number at its limit.
limits() {
    one_record 2000 1000 50 600 20000 20000 10000000 65535 65535 501 65535 flange 999 2000
}

longest_record() {
    one_record 50 100 30 500 0 0 0 0 0 10 1 20 2 30 3 40 4 50 5 60 6 70 7 80 8 flange 1 50
}

longest() {
    many 2340 | "$program" - "$book" && [ "$(wc -c <"$book")" -eq 65536 ]
}

# Where no file may grow, what was begun is not left, and what was there stays. Standard error can't be a file then.
no_room() {
    echo old >"$book"
    (
        trap '' XFSZ
        ulimit -f 0
        "$program" examples/book.txt "$book" 2>&1
        echo "$?"
    ) | cat >target/tests/said
    printf '%s\n' "book: can't write $book" 2 | cmp - target/tests/said && [ "$(<"$book")" = old ] && [ ! -e "$book.part" ]
}

check 'builds' tests/cc "$program" examples/book.c
check 'sample text' gives 0 /dev/null "$program" examples/book.txt "$book"
check 'its book' cmp "$book" crates/booklines/stdin
check 'its lines' gives 0 crates/booklines/stdout "${run[@]}" BOOK="$book"
# So far under a look for leaks too, which takes seconds a run on some machines.
export ASAN_OPTIONS=detect_leaks=0
check 'no section' writes no_section </dev/null
check 'an untidy text' writes pulled < <(untidy)
check 'limits' writes limits <<<'2000 1000 50 600 20000 20000 10000000 65535 65535 501 65535 flange 999 2000'
check 'a rib' writes rib <examples/rib.txt
check 'the longest record' writes longest_record <<<'50 100 30 500 0 0 0 0 0 80 8 10 1 70 7 20 2 60 6 30 3 50 5 40 4  flange  1  50 '
check 'a flange of no height' writes one_record 400 600 30 500 0 0 0 0 0 540 3216 <<<'400 600 30 500 0 0 0 0 0 540 3216 flange 0 7'
check 'the longest book' longest
check 'a section more' refuses 'refused 19, more sections than a book of 65536 bytes holds' < <(many 2341)
check 'far more' refuses 'refused 19, more sections than a book of 65536 bytes holds' < <(many 9000)
check 'a bad line after them' refuses "line 9001: $few" < <(many 9000 && echo 1)
check 'each bad line' refuses "line 1: $few" "line 4: $few" "line 5: a word that is no whole number" < <(printf '%s\n' 1 "$plate" '' 2 x)

# What is said of a line that stands between two good ones and a comment.
while IFS='|' read -r words line; do
    check "bad line: $line" refuses "line 3: $words" < <(printf '%s\n' '#' "$plate" "$line" "$plate")
done <<END
refused 7, concrete: fck is none of 20, 25, 30, 35, 40, 45, 50|1000 100 29 500 3700 4500 0 0 0
refused 8, width or height: b outside 50 to 2000 or h outside 50 to 1000|1000 20 30 500 3700 4500 0 0 0 30 100
refused 9, bar strength: fyk outside 400 to 600|1000 100 30 0 3700 4500 0 0 0
refused 10, fibre strength: feq2 or feq3 over 20000|1000 100 30 500 3700 20001 0 0 0
refused 11, axial load outside -10000000 to 10000000|1000 100 30 500 3700 4500 -2147483648 0 0
$bars|$plate 50 100
$bars|1000 100 30 500 3700 4500 0 7 0 80 100 80 200
$bars|$plate 81 1 82 1 83 1 84 1 85 1 86 1 87 1 88 1 89 1
$flange|$plate flange 100 1000
$flange|1000 100 30 0 3700 4500 0 0 0 100 1 flange 50 999
$flange|$plate flange 50 2001
$bars|$plate 100 1 flange 99 2000
refused 13, stirrups without spacing: Asw is not 0 and s is|1000 100 30 500 3700 4500 0 7 0 80 100
$few|1000 100 30 500 3700 4500 0 0
$few|$plate 80 100 90
$few|$plate flange
$few|$plate 80 100 flange 50
a number outside 0 to 65535|65536 100 30 500 3700 4500 0 0 0
a number outside 0 to 65535|$plate 80 -1
a number outside 0 to 65535|$plate 18446744073709551696 100
a load outside 32 bits|1000 100 30 500 3700 4500 2147483648 0 0
a load outside 32 bits|1000 100 30 500 3700 4500 -2147483649 0 0
a word that is no whole number|1000 100 C30 500 3700 4500 0 0 0
a word that is no whole number|1000 100 30.5 500 3700 4500 0 0 0
a word that is no whole number|1000 100 30 500 3700 4500 - 0 0
a word that is no whole number|$plate # plate
a word that is no whole number|$plate flang
a word that is no whole number|$plate flanges 50 1000
a word that is no whole number|$plate flange50 1000
a word that is no whole number|$plate 80 flange 50 1000
a word that is no whole number|$plate flange 50 wide
a word after the flange's hf and bf|$plate flange 50 1000 80 100
a word after the flange's hf and bf|$plate flange 0 0 flange 0 0
END

check 'no book named' fails 'usage: book TEXT-FILE BOOK-FILE' examples/book.txt
check 'missing text' fails "book: can't read target/tests/none" target/tests/none "$book"
check 'folder as text' fails "book: can't read target" target "$book"
check 'folder as book' fails "book: can't write target/tests" examples/book.txt target/tests
check 'no room for the book' no_room
verdict
