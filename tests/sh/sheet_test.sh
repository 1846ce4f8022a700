#!/usr/bin/env bash
# The sheet: golden ones, every listed depth on it, each refusal, damaged books, bad arguments, and `make sheet`.
# sheet_test.sh write: writes the golden sheets anew, to be looked at before they are kept.
set -u
cd "$(dirname "$0")/../.." || exit 1
. tests/sh/check.sh
. tests/sh/book.sh
sheet=target/tests/sheet
lent=target/tests/lent-sheet
depths=target/tests/depths
sample=crates/booklines/stdin
made=target/tests/sheets
make=(env -u BOOK -u RECORD -u MAKEFLAGS make -s --no-print-directory sheet)
rm -rf "$made" && mkdir -p "$made"

# Seven depths, one of them exact; 39, more than the screen has room for.
one_record 1000 120 40 500 20000 11000 -439304 0 0 61 1000 >"$made/several.book"
one_record 1361 999 40 500 19871 10886 -1602589 0 0 502 2245 504 1424 >"$made/many.book"
one_record 400 600 30 500 2000 2000 500000 157 200 40 402 110 226 180 226 250 226 330 226 410 226 500 628 550 1608 >"$made/eight.book"
one_record 50 1000 30 500 0 20000 0 157 200 960 402 965 226 970 226 980 226 985 1608 >"$made/narrow.book"
# Ribs: the first is drawn whole, of the second the flange is cut, and of the third there is only a piece of the web.
rib >"$made/rib.book"
one_record 300 600 30 500 2000 2000 0 157 200 30 402 60 226 90 226 500 628 550 1608 flange 100 2000 >"$made/cut_rib.book"
one_record 310 100 20 500 14500 19000 0 157 200 5 840 52 820 flange 23 610 >"$made/low_rib.book"
# Its depth is the last, h.
one_record 1000 100 30 500 3700 4500 1376184 157 200 >"$made/wide.book"
one_record 300 300 30 500 2000 2000 0 0 0 30 402 30 402 90 226 120 226 150 226 180 226 210 226 270 65535 >"$made/bars.book"
# For the lent list, of three depths and of eight. At the second, 20 mm, it is just the tension face that limits the strain.
one_record 400 78 30 500 2000 2000 0 0 3 >"$made/three_depths.book"
one_record 400 600 30 500 2000 2000 0 0 8 >"$made/eight_depths.book"
# Two layers below mid-height. At x 119 the deepest of them limits the strain; at their centroid, d, the compressed face would.
one_record 300 500 30 500 2000 2000 -117000 0 0 40 400 400 1000 460 600 >"$made/two_layers.book"
pulled >"$made/pulled.book"
head -c 75 "$sample" >"$made/cut.book"

# golden FILE MADE: whether what was made is what is kept; asked to write, keeps it.
golden() {
    [ "$mode" != write ] || cp "$2" "$1"
    cmp "$2" "$1"
}

# golden_sheet STATUS FILE WORD..: the same of a sheet.
golden_sheet() {
    drawn "$1" "${@:3}" && golden "$2" target/tests/printed
}

# drawn STATUS WORD..: whether a sheet is drawn with this status, and nothing said beside it. It is kept, to be read as XML.
drawn() {
    local status=$1
    shift
    "$sheet" "$@" >target/tests/printed 2>target/tests/said
    [ "$?" -eq "$status" ] && [ ! -s target/tests/said ] && cp target/tests/printed "$made/$((++sheets)).svg"
}

# shows WORDS: whether the last sheet has these, as a text of their own.
shows() {
    grep -qF ">$1<" target/tests/printed
}

# The depths of a book of one record as `depths` prints them, in the sheet's words: four digits of the moment in kNm, or all before the
# point, rounded down.
listed() {
    "$depths" "$1" | awk '
        function down(n) { return n < int(n) ? int(n) - 1 : int(n) }
        $1 == "x" {
            size = $7 < 0 ? -$7 : $7 + 0
            tens = size < 1e4 ? 1000 : size < 1e5 ? 100 : size < 1e6 ? 10 : 1
            moment = sprintf("%.*f", length(tens) - 1, down($7 * tens / 1000) / tens)
            sub(/^-/, "−", moment)
            print "x " $2 " mm|" ($5 == "1," ? "exact" : "between " $2 " and " $2 + 1 " mm") "|" moment " kNm"
        }'
}

# The last so many depths that the last sheet shows, likewise. The first moment is the head's.
shown() {
    sed -nE 's/.*>(x [0-9]+ mm|exact|between [0-9]+ and [0-9]+ mm|−?[0-9.]+ kNm)<.*/\1/p' target/tests/printed | sed 1d |
        awk '/^x/ { x = $0 } /kNm$/ { moment = $0 } /^[be]/ { kind = $0 } NR % 3 == 0 { print x "|" kind "|" moment }' | tail -n "$1"
}

# every_depth BOOK COUNT: whether the sheet shows all depths of its record, so many, and each has its line across the section, which is as wide
# as there is room for; one of them is thick.
every_depth() {
    listed "$1" >target/tests/expected
    drawn 0 "$1" && [ "$(wc -l <target/tests/expected)" -eq "$2" ] && shown "$2" | cmp - target/tests/expected &&
        [ "$(grep -c 'x2="269.0".*"2.5"' target/tests/printed) $(grep -c 'x2="269.0".*"1.0"' target/tests/printed)" = "1 $(($2 - 1))" ]
}

# with BYTE AT [BOOK]: the book, the sample if none is named, with another byte there.
with() {
    local book=${3-$sample}
    head -c "$2" "$book"
    numbers 1 "$1"
    tail -c +$(($2 + 2)) "$book"
}

# refuses NUMBER [RECORD]: whether the book on standard input is refused so. The words of its sheet are added to all the refused ones'.
refuses() {
    cat >"$made/refused.book"
    drawn 1 "$made/refused.book" "${@:2}" && shows "refused: $1" && sed -nE 's/.*>(.*)<\/text>/\1/p' target/tests/printed >>"$made/refusals.txt"
}

# damaged BOOK LEN: each byte of the book, whose first record has so many, changed, and the book cut there: no sheet fails.
damaged() {
    local at byte number size
    size=$(wc -c <"$1")
    for ((at = 0; at < size; at++)); do
        byte=$(od -An -tu1 -j"$at" -N1 "$1")
        number=$((at / $2 % 2))
        with $((255 - byte)) "$at" "$1" >"$made/damaged.book"
        head -c "$at" "$1" >"$made/short.book"
        { drawn 0 "$made/damaged.book" "$number" || drawn 1 "$made/damaged.book" "$number"; } && drawn 1 "$made/short.book" || return 1
    done
}

# Whether each file is XML that is well formed.
well_formed() {
    python3 -c 'import sys, xml.sax
for name in sys.argv[1:]:
    xml.sax.parse(name, xml.sax.ContentHandler())' "$@" 2>target/tests/said
}

# So that the above is known to fail.
half_a_sheet() {
    head -c 999 docs/sheet.svg >"$made/half.svg"
    ! well_formed "$made/half.svg" && says SAXParseException
}

# fails WORD..: whether nothing is drawn, with one line on standard error.
fails() {
    gives 2 /dev/null "$sheet" "$@" && [ "$(wc -l <target/tests/said)" -eq 1 ]
}

no_room() {
    "$sheet" "$sample" >/dev/full 2>target/tests/said
    [ "$?" -eq 2 ] && says "sheet: can't write the sheet"
}

mode=${1-compare}
sheets=0
check 'builds' tests/cc "$sheet" panel/*.c
check 'depths to compare with' tests/cc "$depths" examples/depths.c
check 'record 0' golden_sheet 0 tests/sheets/record_0.svg "$sample"
check 'record 1' golden_sheet 0 tests/sheets/record_1.svg "$sample" 1
check 'several depths' golden_sheet 0 docs/sheet.svg "$made/several.book"
check 'eight layers' golden_sheet 0 tests/sheets/eight_layers.svg --fr1 7100 --fr3 8700 "$made/eight.book"
check 'narrow section' golden_sheet 0 tests/sheets/narrow.svg "$made/narrow.book"
check 'wide section' golden_sheet 0 tests/sheets/wide.svg "$made/wide.book"
check 'rib' golden_sheet 0 tests/sheets/rib.svg "$made/rib.book"
check 'cut rib' golden_sheet 0 tests/sheets/cut_rib.svg "$made/cut_rib.book"
check 'refused section' golden_sheet 1 tests/sheets/refused_section.svg --fr1 1220 --fr3 1060 "$made/bars.book"
check 'refused book' golden_sheet 1 tests/sheets/refused_book.svg "$made/cut.book"
# The golden sheets so far were drawn under a look for leaks too, which takes seconds a run on some machines.
export ASAN_OPTIONS=detect_leaks=0

check 'every depth of seven' every_depth "$made/several.book" 7
check 'every depth of 39' every_depth "$made/many.book" 39
check 'every depth of a rib' every_depth "$made/low_rib.book" 5
check 'that its flange is not drawn is told' shows 'flange 610 × 23 mm (not drawn)'
check 'a moment below zero' every_depth "$made/pulled.book" 1
check 'it is told' shows 'is the moment to read, at x 9 mm: below zero.'
check 'two layers below mid-height' drawn 0 "$made/two_layers.book"
check 'the deepest limits the strain' shows 'deepest layer'
check 'their centroid is told' shows 'with d 422 mm'
check 'builds with a lent list' env FW_CFLAGS='-Iinclude -Dfw_depths=lent_list' tests/cc "$lent" panel/*.c tests/c/lent.c
sheet=$lent check 'the least moment later, and twice' golden_sheet 0 tests/sheets/least_later.svg "$made/three_depths.book"
sheet=$lent check 'more depths than the screen has room for' golden_sheet 0 tests/sheets/more_depths.svg "$made/eight_depths.book"

check 'no class' drawn 0 --fr3 5000 --fr1 999 "$sample"
check 'fR1 is told' shows '17: fR1 below 1 N/mm²'
check 'no class for fR3' drawn 0 --fr1 1000 --fr3 499 "$sample"
check 'fR3 is told' shows '17: fR3 below half the step'

# A number, and the sample book with a byte at a place.
while read -r number byte at; do
    check "refusal $number" refuses "$number" < <(with "$byte" "$at")
done <<END
2 0 75
3 53 60
4 9 20
7 29 4
8 255 1
9 255 7
10 255 11
11 255 15
13 7 16
END
check 'refusal 6' refuses 6 < <(one_record 200 400 30 500 2000 2000 0 0 0 360 1000 flange 80 800 7)
check 'refusal 20' refuses 20 < <(one_record 200 400 30 500 2000 2000 0 0 0 360 1000 flange 400 199)
check 'refusal 1 of a long book' refuses 1 < <(head -c 99999 /dev/zero)
check 'refusal 5' refuses 5 2 <"$sample"
check 'the words of refusals' golden tests/sheets/refusals.txt "$made/refusals.txt"
check 'damaged books' damaged "$sample" 24
check 'damaged ribs' damaged "$made/rib.book" 32

check 'well formed' well_formed "$made"/*.svg
check 'half a sheet is not' half_a_sheet

while read -ra words; do
    check "bad arguments: ${words[*]}" fails "${words[@]}"
done <<END

--fr1 1000 $sample
--fr3 1000 $sample
--fr1 1000 --fr1 1000 --fr3 1000 $sample
--fr3 1000 --fr1 1000 --fr3 1000 $sample
--fr1 1000 --fr3 65536 $sample
--fr1 -1 --fr3 1000 $sample
--fr1 1000 --fr3
--fr2 1000 $sample
$sample -1
$sample 1x
$sample 4294967296
$sample 0 0
END
check 'an empty number' fails "$sample" ''
check 'missing file' fails target/tests/none
check 'missing file is told' says "sheet: can't read target/tests/none"
check 'folder' fails target
check 'no room for the sheet' no_room

check 'make sheet' gives 0 /dev/null "${make[@]}"
check 'its sheet' cmp target/sheet.svg tests/sheets/record_0.svg
check 'make sheet of another' gives 0 /dev/null "${make[@]}" BOOK="$sample" RECORD=1
check 'its sheet too' cmp target/sheet.svg tests/sheets/record_1.svg
check 'make sheet of a refused book' gives 2 /dev/null "${make[@]}" BOOK="$made/cut.book"
check 'the refusal is told' says 'refused: target/sheet.svg says why'
check 'and drawn' cmp target/sheet.svg tests/sheets/refused_book.svg
check 'make sheet of no book' gives 2 /dev/null "${make[@]}" BOOK=target/tests/none
check 'no sheet is left' [ ! -e target/sheet.svg ]
verdict
