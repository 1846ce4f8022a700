#!/usr/bin/env bash
# Each struct of the header has the source's fields in their order, and each function its parameters (tests/layout).
set -eu
cd "$(dirname "$0")/../.."
mkdir -p target/tests
tests/layout >target/tests/layout.c
tests/cc target/tests/layout target/tests/layout.c
target/tests/layout
