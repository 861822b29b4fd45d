#!/usr/bin/env bash
# The gate's part of this folder: the second planner must pass its own tests, the
# corpus must be what it says, and a fixed row of random books must bring no
# difference between the two planners. Every line of output begins with
# "beside: ", and a failure shows in the exit status. It can't be the gate's last
# command, since the gate's last line is rt's own, which .ci/run keeps and prints
# at its end.
set -euo pipefail
cd "$(dirname "$0")/.."

# About a minute's worth of books on a machine that is not busy: by the archive
# where it can be linked, and elsewhere by batches for the corpus program.
count=400000
batches_beside_archive=20
batches_alone=400
seed=1
machine=$(uname -m)
lines=$(mktemp -d)
trap 'rm -rf "$lines"' EXIT

run() {
    cargo run --quiet --release --offline --manifest-path beside/Cargo.toml --bin "$@"
}

# The first parts of the twelve, as the listing program prints them and as the
# second planner does.
first_lines() {
    for book in examples/*.book; do
        tools/run-program crates/listing/out/listing --first <"$book"
    done
}

second_first_lines() {
    for book in examples/*.book; do
        cargo run --quiet --release --offline --manifest-path second/Cargo.toml --bin second-listing -- --first "$book"
    done
}

{
    # An archive or a program left from an earlier state must not be compared,
    # so they are made here. It costs little where rt has just proved the crates.
    tools/prove listing
    tools/prove corpus
    if [ "$machine" = x86_64 ]; then
        tools/archive
    fi
    cargo test --quiet --release --offline --manifest-path second/Cargo.toml
    cargo build --release --offline --manifest-path beside/Cargo.toml
    run beside-corpus -- --check
    first_lines >"$lines/proved"
    second_first_lines >"$lines/second"
    diff "$lines/proved" "$lines/second"
    echo "listing --first says what the second planner does of the twelve"
    if [ "$machine" = x86_64 ]; then
        run beside-compare -- "$count" "$seed" --replay
        run beside-batch -- "$batches_beside_archive" "$seed"
    else
        echo "the archive is for x86-64 and can't be linked on $machine: the corpus program is compared instead"
        run beside-batch -- "$batches_alone" "$seed"
    fi
} 2>&1 | sed -u 's/^/beside: /'
