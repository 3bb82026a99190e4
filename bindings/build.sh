#!/bin/sh
# Builds the library, the C example and the Rust wrapper, and tests both.
set -e
cd "$(dirname "$0")/.."

sh bindings/library.sh

mkdir -p target/examples
${CC:-cc} -std=c99 -O2 -Wall -Wextra -Werror -pedantic -Iinclude examples/column.c target/staticlib/libpoolsheet.a -o target/examples/column
${CXX:-c++} -std=c++11 -Wall -Wextra -Werror -pedantic -fsyntax-only -x c++ include/poolsheet.h

for kept in checkout-state checkout-weight mail-host; do
    target/examples/column sheets/${kept%-*}.md ${kept#*-} > target/examples/$kept.txt
    cmp target/examples/$kept.txt examples/$kept.txt
done
if target/examples/column sheets/checkout.md nowhere 2> target/examples/nowhere.txt; then
    echo "column: found a column that is not there" >&2
    exit 1
fi

cargo test --quiet --manifest-path bindings/rust/Cargo.toml
echo "bindings: ok"
