#!/usr/bin/env bash
# The header alone is C99 and C++11, without a warning, and each of its functions has its C name in C++ too.
set -u
cd "$(dirname "$0")/../.." || exit 1
. tests/sh/check.sh
flags=(-Iinclude -pedantic -Wall -Wextra -Wconversion -Wshadow -Wundef -Werror -fsyntax-only)

# The functions that it declares.
functions() {
    sed -nE 's/^fw_[a-z_]+ (fw_[a-z_]+)\(.*/\1/p' include/fordwhistle.h | sort
}

# A program in C++ that names each, and what its object file asks the linker for.
c_names() {
    {
        echo '#include "fordwhistle.h"'
        functions | sed 's/.*/extern void (*const of_&)() = reinterpret_cast<void (*)()>(\&&);/'
    } >target/tests/header.cc
    functions >target/tests/expected
    g++ -std=c++11 -Iinclude -c target/tests/header.cc -o target/tests/header.o &&
        nm -u target/tests/header.o | awk '{ print $NF }' | sort | cmp - target/tests/expected && [ "$(functions | wc -l)" -eq 12 ]
}

check 'C99' gcc -std=c99 "${flags[@]}" -Wstrict-prototypes -x c include/fordwhistle.h
check 'C++11' g++ -std=c++11 "${flags[@]}" -x c++ include/fordwhistle.h
check 'C names in C++' c_names
verdict
