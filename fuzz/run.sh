#!/usr/bin/env bash
# run.sh SECONDS: fuzzes both planners beside each other for so long. It goes
# on from where an earlier run stopped. Exit status 1: a difference, a crash or
# a call that did not end was found.
set -euo pipefail
if [ $# -ne 1 ] || ! [[ $1 =~ ^[0-9]+$ ]]; then
    echo "usage: fuzz/run.sh SECONDS" >&2
    exit 2
fi
cd "$(dirname "$0")"
./build.sh

found=target/found
if [ ! -e "$found/default/queue" ]; then
    # The gate's corpus is what the fuzzer begins with, but for the few books
    # that are so long that mutating them is slow.
    rm -rf target/seeds
    (cd .. && cargo run --quiet --release --offline --manifest-path beside/Cargo.toml \
        --bin beside-corpus -- --split fuzz/target/seeds)
    find target/seeds -type f -size +1000c -delete
    find target/seeds -type f -empty -delete
fi

# AFL++ passes over books that crash from the start, so they are tried first.
if [ -d target/seeds ] && ! ./target/harness target/seeds/* >/dev/null; then
    echo "the planners differ on a book of the corpus" >&2
    exit 1
fi

# The first three keep AFL++ from asking for changes to the machine; the last
# stops it at the first find.
export AFL_SKIP_CPUFREQ=1 AFL_NO_AFFINITY=1 AFL_I_DONT_CARE_ABOUT_MISSING_CRASHES=1
export AFL_NO_UI=1 AFL_NO_COLOR=1 AFL_AUTORESUME=1 AFL_BENCH_UNTIL_CRASH=1
# 3,241 bytes is the largest book; a little more lets bytes stand after it.
if ! afl-fuzz -V "$1" -G 3300 -t 2000 -i target/seeds -o "$found" -- ./target/harness \
    >target/afl.log 2>&1; then
    tail -n 30 target/afl.log
    echo "afl-fuzz failed; fuzz/target/afl.log has all that it said" >&2
    exit 2
fi

grep -E '^(run_time|execs_done|corpus_count|saved_crashes|saved_hangs|edges_found|stability)' \
    "$found/default/fuzzer_stats"
finds=$(find "$found/default/crashes" "$found/default/hangs" -name 'id:*' | sort)
if [ -n "$finds" ]; then
    echo "found; see one with: fuzz/target/harness FILE"
    echo "$finds" | sed 's/^/fuzz\//'
    exit 1
fi
echo "no difference found"
