#!/usr/bin/env bash
# examples/depths.c on the sample book, on books with a negative moment and with a rib, on the longest, and on what is no book;
# examples/knob.c, which has at each load the first depth that depths.c prints; and examples/tag.c on the sample text, on each refusal and
# on bad texts.
set -u
cd "$(dirname "$0")/../.." || exit 1
. tests/sh/check.sh
. tests/sh/book.sh
depths=target/tests/depths
book=target/tests/book
expected=target/tests/expected

# 2340 records of zeros. Their places are 24 apart.
longest() {
    head -c 56160 /dev/zero
    # shellcheck disable=SC2046
    numbers 4 $(seq 0 24 56136) 56160 2340 65536
    printf 'BOOK'
}

expect() {
    printf '%s\n' "$@" >"$expected"
}

check 'builds' tests/cc "$depths" examples/depths.c
check 'sample' gives 0 examples/depths.stdout "$depths" crates/booklines/stdin

pulled >"$book"
expect 'record 0: 1 depth' '  x 9 mm, kind 2, moment -121856.6261500 N m' '  shear 0.000 N'
check 'negative moment' gives 0 "$expected" "$depths" "$book"

rib >"$book"
expect 'record 0: 1 depth' '  x 63 mm, kind 2, moment 171184.6421000 N m' '  shear 87696.000 N'
check 'rib' gives 0 "$expected" "$depths" "$book"
one_record 200 400 30 500 2000 2000 100000 0 0 360 1000 flange 400 800 >"$book"
expect 'record 0: refused 20, flange' '  shear refused 20, flange'
check 'flange as high as the section' gives 0 "$expected" "$depths" "$book"

longest >"$book"
for ((k = 0; k < 2340; k++)); do
    printf 'record %s: refused 7, concrete\n  shear refused 7, concrete\n' "$k"
done >"$expected"
check 'longest book' gives 0 "$expected" "$depths" "$book"

expect 'book refused 1, length of the book'
printf '\0' >>"$book"
check 'a byte more' gives 2 "$expected" "$depths" "$book"
head -c 75 crates/booklines/stdin >"$book"
check 'cut book' gives 2 "$expected" "$depths" "$book"

# What depths.c prints of the plate's first depth at a load. A ten-millionth of a N m is a fifth of a mN half-mm.
first_of_list() {
    local line moment
    one_record 1000 100 30 500 3700 4500 "$1" 0 0 >"$book"
    "$depths" "$book" >target/tests/printed
    printf 'load %s N: ' "$1"
    sed -nE 's/^record 0: (refused [0-9]+),.*/\1/p' target/tests/printed
    line=$(grep -m 1 '^  x' target/tests/printed) || return
    moment=$(sed -E 's/.*moment ([0-9]+)\.([0-9]{7}) N m$/\1\2/' <<<"$line")
    sed -E "s/^  (x .*, moment ).*/\1$((10#$moment / 5)) mN half-mm/" <<<"$line"
}

check 'knob builds' tests/cc target/tests/knob examples/knob.c
for ((load = -200000; load <= 1400000; load += 200000)); do
    first_of_list "$load"
done >"$expected"
check 'the knob shows the first of each list' gives 0 "$expected" target/tests/knob
check 'of which some are refused and some are not' [ "$(grep -c 'refused 14$' "$expected") $(grep -c 'kind 2' "$expected")" = '2 7' ]

check 'missing file' gives 1 /dev/null "$depths" target/tests/none
check 'missing file is told' says "depths: can't read target/tests/none"
check 'folder' gives 1 /dev/null "$depths" target
check 'no file' gives 1 /dev/null "$depths"

# wrong WORDS: whether the text on standard input is refused with just these on standard error.
wrong() {
    gives 2 /dev/null "$tag" - && [ "$(<target/tests/said)" = "tag: $1" ]
}

# results COUNT: so many, as a line has them.
results() {
    for ((i = 0; i < $1; i++)); do
        printf ' 4000'
    done
}

tag=target/tests/tag
beams='refused 21, the number of beams is none of 3, 4, 5, 6, 8, 10, 12, 15'
none='class none, as a strength is refused'
check 'tag builds' tests/cc "$tag" examples/tag.c
check 'sample text' gives 0 examples/tag.stdout "$tag" examples/beams.txt

expect 'fR1 of 2 beams, kPa: 4000 4200' "  characteristic fR1k $beams" \
    'fR3 of 3 beams, kPa: 4294967295 3600 3700' '  characteristic fR3k refused 22, a result is outside 1 to 20000 kPa' "$none"
check 'too few beams, and a result too high' gives 1 "$expected" "$tag" - < <(printf 'fR1 4000 4200\nfR3 4294967295 3600 3700\n')
expect 'fR1 of 3 beams, kPa: 4000 4200 4400' '  mean 4200 kPa, deviation 200 kPa' '  characteristic fR1k 3634 kPa' \
    'fR3 of 3 beams, kPa: 2698 4495 5098' '  characteristic fR3k refused 23, the results lie so far apart that it would be below 0' \
    "$none"
check 'results too far apart' gives 1 "$expected" "$tag" - < <(printf 'fR1 4000 4200 4400\nfR3 2698 4495 5098\n')
expect 'fR1 of 3 beams, kPa: 8000 8000 8000' '  mean 8000 kPa, deviation 0 kPa' '  characteristic fR1k 8000 kPa' \
    'fR3 of 3 beams, kPa: 3999 3999 3999' '  mean 3999 kPa, deviation 0 kPa' '  characteristic fR3k 3999 kPa' \
    'class refused 17, fR1k is below 1000 kPa, or fR3k is below half the step'
check 'no class, of an untidy text' gives 1 "$expected" "$tag" - < <(printf 'fR1\t8000  08000 8000 \r\nfR3 3999 3999 3999')
expect "fR1 of 100 beams, kPa:$(results 100)" "  characteristic fR1k $beams" 'fR3 of 0 beams, kPa:' "  characteristic fR3k $beams" "$none"
check 'as many beams as there is room for, and none' gives 1 "$expected" "$tag" - < <(printf 'fR1%s\nfR3\n' "$(results 100)")
check 'a beam more' wrong 'line 1, fR1: more than 100 results' < <(printf 'fR1%s\nfR3\n' "$(results 101)")

while IFS='|' read -r words text; do
    check "bad text: $text" wrong "$words" < <(printf '%b' "$text")
done <<'END'
line 1, fR1: the line does not begin with that name|
line 1, fR1: the line does not begin with that name|fR3 3500 3600 3700\n
line 1, fR1: the line does not begin with that name|fR14 4000 4200 4400\n
line 1, fR1: a word that is no whole number|fR1k 4000 4200 4400\n
line 1, fR1: a word that is no whole number|fR1 4000 4200.5 4400\n
line 1, fR1: a word that is no whole number|fR1 4000 -4200 4400\n
line 2, fR3: the line does not begin with that name|fR1 4000 4200 4400\n
line 2, fR3: a number of more than 32 bits|fR1 4000 4200 4400\nfR3 3500 4294967296 3700\n
line 2, fR3: a number of more than 32 bits|fR1 4000 4200 4400\nfR3 3500 3600 18446744073709551617\n
line 2, fR3: more text after that line|fR1 4000 4200 4400\nfR3 3500 3600 3700\n\n
END
check 'a folder as text' wrong "line 1, fR1: it can't be read" <target
check 'missing text' gives 2 /dev/null "$tag" target/tests/none
check 'missing text is told' says "tag: can't read target/tests/none"
check 'no text' gives 2 /dev/null "$tag"
check 'the usage is told' says 'usage: tag FILE'
verdict
