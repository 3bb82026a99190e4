#!/bin/sh
# Instructions a byte of the sheet call, counted by callgrind, on sheets of SIZE bytes (default 65,536): instructions.sh [SIZE [SHAPE..]]
# What a run with three calls takes more than one with a single call is two calls.
cd "$(dirname "$0")/bench" || exit 2
cargo build --release --quiet --bin bench || exit 2
bench=${CARGO_TARGET_DIR:-target}/release/bench
size=${1:-65536}
[ $# -gt 0 ] && shift
[ $# -gt 0 ] || set -- $(sed -n 's/.*name: "\([a-z-]*\)".*/\1/p' ../src/shapes.rs)

# The instructions of the sheet call in a run that repeats it so often.
collected() {
    valgrind --tool=callgrind --callgrind-out-file=/dev/null --toggle-collect=poolsheet_sheet \
        "$bench" --only "$1" --size "$size" --reps "$2" --reader ours 2>&1 | awk '/Collected/ { print $4 }'
}

for shape; do
    one=$(collected "$shape" 1)
    three=$(collected "$shape" 3)
    echo "$shape $one $three $size" | awk '{ printf "%s %.2f\n", $1, ($3 - $2) / 2 / $4 }'
done
