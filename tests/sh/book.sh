# shellcheck shell=bash
# book.sh: books for a shell test, byte by byte.

# numbers BYTES NUMBER..: little-endian.
numbers() {
    local bytes=$1 number i byte
    shift
    for number; do
        for ((i = 0; i < bytes; i++)); do
            printf -v byte '\\x%02x' $((number >> 8 * i & 255))
            printf '%b' "$byte"
        done
    done
}

# one_record B H FCK FYK FEQ2 FEQ3 LOAD ASW S [DEPTH AREA].. [flange HF BF [ZERO]]: the book of one section.
one_record() {
    local first=("${@:1:9}") layers=() hf=0 bf=() len
    shift 9
    while [ $# -gt 0 ] && [ "$1" != flange ]; do
        layers+=("$1" "$2")
        shift 2
    done
    [ $# -eq 0 ] || { hf=$2 && bf=("$3" "${4-0}"); }
    len=$((24 + 2 * (${#layers[@]} + ${#bf[@]})))
    numbers 2 "${first[@]:0:6}"
    numbers 4 "${first[6]}"
    numbers 2 "${first[@]:7}" $((${#layers[@]} / 2)) "$hf" "${layers[@]}" "${bf[@]}"
    numbers 4 0 "$len" 1 $((len + 20))
    printf 'BOOK'
}

# The section of examples/rib.txt.
rib() {
    one_record 200 400 30 500 2000 2000 100000 0 0 360 1000 flange 80 800
}

# Bars near the compressed face and a load that pulls: its moment is below zero.
pulled() {
    one_record 300 300 30 500 0 0 -1000000 0 0 30 3700 160 50
}
