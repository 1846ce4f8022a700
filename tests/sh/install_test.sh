#!/usr/bin/env bash
# `make install` of the library that is there: what it leaves where, and that a program is built from that alone.
set -u
cd "$(dirname "$0")/../.." || exit 1
. tests/sh/check.sh
prefix=$PWD/target/tests/installed
pc=$prefix/lib/pkgconfig/fordwhistle.pc

installs() {
    rm -rf "$prefix" && make -s --no-print-directory -o lib install DESTDIR="$1" PREFIX="$2"
}

# The files below a folder that are readable by all and writable by their owner alone.
files() {
    (cd "$1" && find . -type f -perm 644 | sort)
}

# words OPTION FIELD: what pkg-config answers; where there is none, the file's field, whose variables are written as the shell's are.
words() {
    if command -v pkg-config >/dev/null; then
        PKG_CONFIG_PATH=$prefix/lib/pkgconfig pkg-config "$1" fordwhistle
    else
        (eval "$(grep '^[a-z]*=' "$pc")" && eval "echo $(sed -n "s/^$2: //p" "$pc")")
    fi
}

builds() {
    local libs=$prefix/lib/libpanel.a
    [ "$(uname -m)" != x86_64 ] || libs=$(words --libs Libs)
    FW_CFLAGS=$(words --cflags Cflags) FW_LIBS=$libs tests/cc target/tests/installed-depths examples/depths.c
}

printf '%s\n' ./include/fordwhistle.h ./lib/libpanel.a ./lib/pkgconfig/fordwhistle.pc >target/tests/expected
check 'a prefix' installs '' "$prefix"
check 'its files' gives 0 target/tests/expected files "$prefix"
check 'the header' cmp include/fordwhistle.h "$prefix/include/fordwhistle.h"
check 'the library' cmp target/staticlib/libpanel.a "$prefix/lib/libpanel.a"
check 'builds' builds
check 'sample' gives 0 examples/depths.stdout target/tests/installed-depths crates/booklines/stdin
check 'a prefix below DESTDIR' installs "$prefix" /usr
check 'its files below DESTDIR' gives 0 target/tests/expected files "$prefix/usr"
check 'its prefix without DESTDIR' grep -qx 'prefix=/usr' "$prefix/usr/lib/pkgconfig/fordwhistle.pc"
verdict
