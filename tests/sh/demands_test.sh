#!/usr/bin/env bash
# The demands are of every public function, by its contract: each is among the contracts that they read. Where the
# contracts of the C face are taken away, a parameter of it is narrowed, or the laws on the exact sums are said of
# something less, each statement that speaks of these fails and no other. A must-fail edit can't say that: it stays in
# its crate.
set -u
cd "$(dirname "$0")/../.." || exit 1
. tests/sh/check.sh
copy=$(mktemp -d) || exit 1
trap 'rm -rf "$copy"' EXIT
specs=crates/demands/specs
proofs=crates/demands/proofs

# The public functions, crate by crate, a method after its type, each with its signature; the program's are not called
# from outside, and the exports are the functions of their names in panel, over again (all_exported). A crate's modules
# are private: what is called from outside stands in its lib.rt, or is of a type that this passes on by `pub use`.
# What is made by a `From` is read under the name that Rattle gives it.
signatures() {
    awk '
        FNR == 1 { split(FILENAME, path, "/"); type = ""; module = path[4] != "lib.rt" }
        /^pub use / { while ($0 !~ /;/ && (getline more) > 0) $0 = $0 more; gsub(/[a-z_]+::|[{},;]/, " "); for (i = 3; i <= NF; i++) passed[path[2] "." $i "."] = 1; next }
        /^impl From</ {
            file = path[4]; sub(/.rt$/, ".", file); if (!module) file = ""
            made = $0; sub(/.* for /, "", made); sub(/ .*/, "", made)
            count = split($0, words, /[^A-Za-z0-9]+/); name = toupper(substr(made, 1, 1)) substr(made, 2) "From"
            for (i = 3; i <= count && words[i] != "for"; i++) name = name toupper(substr(words[i], 1, 1)) substr(words[i], 2)
            print path[2] "." file name ".from\t-> " made
        }
        /^impl / { type = $2 "."; sub(/<.*/, ".", type) }
        /^}/ { type = "" }
        match($0, /pub fn [a-z0-9_]+/) && (!module || passed[path[2] "." type]) {
            name = substr($0, RSTART, RLENGTH); sub(/.* /, "", name)
            while ($0 !~ /\)/ && (getline more) > 0) $0 = $0 more
            sub(/\(self/, "(self: " type)
            print path[2] "." type name "\t" $0
        }
    ' crates/*/src/lib.rt crates/*/src/*.rt | grep -vE '^(booklines|panel_c)\.' | sort -u
}

# same: whether standard input is what target/tests/expected has, and that is something.
same() {
    [ -s target/tests/expected ] && diff - target/tests/expected
}

all_read() {
    signatures | cut -f1 >target/tests/expected
    sed -nE 's/^use Rattle\.([a-z]+)\.proofs\.(.*)\.Reads as .*/\1.\2/p' "$specs/PublicContracts.antt" | sort | same
}

# What is read of each is one contract, whole.
all_contracts() {
    sed -nE 's/^use .*\.Reads as (.*)/asked = \1.Asked; told = \1.Learnt/p' "$specs/PublicContracts.antt" | sort >target/tests/expected
    grep -oE 'asked = .*Learnt' "$specs/PublicContracts.antt" | sort | same
}

contracts() {
    sed -nE 's/^abbrev pub ([a-z0-9_]+) : Contract .*/\1/p' "$specs/PublicContracts.antt" | sort
}

# stated FILE NAMES..: whether these are the contracts that a statement of the file is on.
stated() {
    local file=$1
    shift
    grep -oE '\bEvery\.[a-z0-9_]+' "$specs/$file" | cut -d. -f2 | sort -u >target/tests/stated
    "$@" >target/tests/expected
    same <target/tests/stated
}

# The contract of each public function that is read.
named() {
    sed -nE 's/^use Rattle\.([a-z]+)\.proofs\.(.*)\.Reads as (.*)/\3 \1.\2/p
        s/^([a-z0-9_]+) = record .* told = (.*)\.Learnt }$/\2 \1/p' "$specs/PublicContracts.antt" |
        awk '$1 in read { print read[$1] "\t" $2 } { read[$1] = $2 }' | sort
}

# Those that take a section, a record or a book, whatever they answer, and those whose answer is a Result or bears a
# number, whatever they take; but for what a section has, which is told of any section, and bytes with the numbers in
# them, which are told of any.
refusing() {
    local answers
    answers=$(awk '/^pub struct / { name = $3 } /^    pub refusal: / { print name }' crates/*/src/*.rt | paste -sd '|')
    signatures | grep -E "	.*(: Section\\b|&\\[u8\\]|-> (Result|$answers)\\b)" | cut -f1 |
        grep -vE '^(section\.Section\.(last_depth|steel)|record\.(byte|le32|layers_at|size_at|RecordBytes\.as_slice))$' |
        join -t '	' - <(named) | cut -f2 | sort
}

# Each contract is decided, and so is the row, or are the bytes, of one that is lent them to write.
all_decided() {
    {
        contracts | sed 's/.*/& &/'
        sed -nE 's/^abbrev pub ([a-z0-9_]+) : \(.* → List ℤ → Type 0\) → .*/\1_row \1/p
            s/^abbrev pub ([a-z0-9_]+) : \(.* → (Written|Result ℕ Refusal) → List ℕ → Type 0\) → .*/\1_bytes \1/p' "$specs/Every.antt"
    } | sort >target/tests/expected
    sed -nE 's/^  pub ([a-z0-9_]+) : One(In)? Contracts\.([a-z0-9_]+).*/\1 \3/p' "$specs/Decided.antt" | sort | same
}

# Each contract asks for nothing.
all_free() {
    contracts | sed 's/.*/& &/' >target/tests/expected
    sed -nE 's/^  pub ([a-z0-9_]+) : AsksNothing Contracts\.([a-z0-9_]+)$/\1 \2/p' "$specs/Free.antt" | sort | same
}

# What each function of the C face takes and gives, in the header's order.
all_wide() {
    sed -nE 's/^fw_[a-z_]+ (fw_[a-z_]+)\(.*/\1/p' include/fordwhistle.h |
        sed 's/.*/Takes &\nGives &/' >target/tests/expected
    sed -nE 's/^  pub [a-z_]+ : (Takes|Gives) Contracts\.([a-z_]+) .*/\1 \2/p' "$specs/Widths.antt" | same
}

# Each edit has its row among those that say why it is refused, with what makes it honest, and each row its edit.
all_explained() {
    tests/edits kinds | sort >target/tests/expected
    sed -nE 's/^\| ([a-z_]+)\/`([a-z_0-9]+)` \| (operands|control) \|.*/\1\/\2 \3/p' docs/CONTRACTS.md | sort | same
}

# What a file of functions has of each of the C face, in order: its line and its clauses.
face() {
    grep -E '(fn fw_|^    (requires|ensures))' "crates/$1/src/lib.rt" | sed 's/^pub extern "C" fn/pub fn/'
}

# The exports take, give and promise what panel's functions do, of which the demands are.
all_exported() {
    face panel >target/tests/expected
    face panel_c | same && [ "$(grep -c '^pub extern "C" fn' crates/panel_c/src/lib.rt)" -eq 12 ]
}

# proved CRATE: whether the copy's crate is proved.
proved() {
    (cd "$copy/crates/$1" && rt check) >target/tests/weakened.log 2>&1
}

# begun: of places FILE:LINE on standard input, where what stands there begins: a field, or a declaration.
begun() {
    local file line
    while IFS=: read -r file line; do
        awk -v place="$file" -v line="$line" '
            NR > line { exit }
            /^(  )?[a-z]/ { begins = NR }
            END { print place ":" begins }
        ' "$proofs/$file"
    done
}

# refused_at PATTERN FILE..: whether the copy's demands are refused, at just those fields of these files that have the
# pattern, and elsewhere for no reason but that these are.
refused_at() {
    local pattern=$1
    shift
    (cd "$proofs" && grep -HnE "$pattern" "$@") | cut -d: -f1,2 | sort >target/tests/expected
    proved demands
    [ "$?" -eq 1 ] && sed -nE '/was not admitted|(was|were) not checked/d
        s/^(.*\/)?proofs\/([A-Za-z0-9]+\.antt:[0-9]+):[0-9]+: error.*/\2/p' target/tests/weakened.log |
        begun | sort -u | same
}

# The functions of the C face answer as they do, but their contracts tell nothing.
untold() {
    tests/copy "$copy" && sed -i '/^    ensures {/d' "$copy/crates/panel/src/lib.rt"
}

# Two of them take 16 bits where the header has 32.
narrowed() {
    tests/copy "$copy" && sed -i -E '/fn fw_record\(/s/number: u32/number: u16/
        s/record_place\(bytes, number\)/record_place(bytes, number as u32)/
        /fn fw_imbalance\(/s/x: u32/x: u16/
        s/imbalance\(section, x\)/imbalance(section, x as u32)/' "$copy/crates/panel/src/lib.rt" &&
        [ "$(grep -c 'u16' "$copy/crates/panel/src/lib.rt")" -eq 4 ]
}

# The laws are of the rounded stresses in place of the exact ones, and allow twice the area.
hollow() {
    local laws=crates/forces/proofs/Rounded.antt near='rw \3 (within_wider (within_exact C _) some (omega arith))'
    tests/copy "$copy" && sed -i -E "s/^(area s =) (.*)/\\1 2 * (\\2)/
        s/Over C \\((strip i|bar j)\\) \\((.*)\\)\\)/\\1 ≡ pos C *ℤ rounded (\\2))/
        s/^(  (strip|bar)_near [ij] h =) stress_within .* (\\((strips|bars) [ij] h\\))$/\\1 $near/" "$copy/$laws" &&
        [ "$(diff "$laws" "$copy/$laws" | grep -c '^>')" -eq 5 ]
}

check 'every public function is read' all_read
check 'and read whole' all_contracts
check 'each asks for nothing' all_free
check 'each of the C face is exported as it is' all_exported
check 'demand 1 is on each that refuses' stated Demand1.antt refusing
check 'demand 2 is on each' stated Demand2.antt contracts
check 'each is decided' all_decided
check 'each of the C face has its widths' all_wide
check 'every edit is explained' all_explained
check 'a face that tells nothing can be made' untold
check 'and proved' proved panel
check 'the statements of it fail, and no other' \
    refused_at '^  fw_[a-z_]+ = ' Decided.antt Demand1.antt Demand2.antt Demand3.antt Request1.antt Request2.antt \
    Request4.antt Request5.antt Request6.antt Request7.antt
check 'a narrower face can be made' narrowed
check 'and proved' proved panel
check 'its widths are refused, and no other statement' refused_at '^  fw_(record|imbalance) = ' Widths.antt
check 'laws on hollow exact sums can be made' hollow
check 'and proved' proved depths
check 'the statements on exact sums fail, and no other' \
    refused_at '^  (imbalance_is_near|moment_is_near|clearly_above|clearly_below) e = ' Demand3.antt
verdict
