#!/bin/sh
# Proves and builds the library for other languages: target/staticlib/libpoolsheet.a.
set -e
cd "$(dirname "$0")/.."
(cd crates/poolsheet_c && rt lib)
mkdir -p target/staticlib
cp crates/poolsheet_c/out/libpoolsheet_c.a target/staticlib/libpoolsheet.a
