#!/bin/sh
# Reads the worst sheets and makes many edits with a stack of 256 KB, then with smaller ones until one does not suffice.
cd "$(dirname "$0")/bench" || exit 2
cargo build --release --quiet --bin stack || exit 2
stack=target/release/stack

if ! (ulimit -s 256 && exec "$stack"); then
    echo "256 KB of stack do not suffice"
    exit 1
fi
echo "256 KB of stack suffice"
for kilobytes in 128 96 64 48 32 24 16; do
    if ! ("$stack" --thread "$kilobytes") 2>/dev/null; then
        echo "$kilobytes KB do not suffice in a thread"
        break
    fi
    echo "$kilobytes KB suffice in a thread"
done
