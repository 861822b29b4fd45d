#!/usr/bin/env bash
# keep.sh [MOST_BYTES]: after a run, takes what the fuzzer found into fuzz/kept:
# inputs that reach an edge of the second planner which the gate's corpus does
# not, each made as short as it can be, up to MOST_BYTES (1,500) in all. Then
# run beside-corpus and look at what has changed.
set -euo pipefail
most=${1:-1500}
cd "$(dirname "$0")"
found=target/found/default/queue
if [ ! -e "$found" ]; then
    echo "nothing was found yet: run fuzz/run.sh first" >&2
    exit 2
fi
export AFL_QUIET=1 AFL_NO_COLOR=1
work=target/keep
rm -rf "$work"
mkdir -p "$work/queue" kept

# The harness asks about an input with its length field made right as well, and
# that is what is worth keeping: a wrong length hides the rest.
for path in "$found"/id:*; do
    ./with-length.sh "$path" >"$work/queue/$(sha256sum <"$path" | cut -c1-12)"
done
(cd .. && cargo run --quiet --release --offline --manifest-path beside/Cargo.toml \
    --bin beside-corpus -- --split "fuzz/$work/corpus" >/dev/null)
find "$work" -type f -empty -delete

# What each book reaches: for each a sorted file of edges. How often an edge is
# taken does not count here: nearly every found book has some number of its own.
# (-r is needed all the same: without it this version of afl-showmap leaves some
# edges out.)
maps() {
    afl-showmap -q -r -i "$work/$1" -o "$work/$1-counts" -- ./target/harness >"$work/log" 2>&1
    mkdir "$work/$1-maps"
    for path in "$work/$1-counts"/*; do
        cut -d: -f1 "$path" | sort >"$work/$1-maps/$(basename "$path")"
    done
}
maps corpus
maps queue
sort -u "$work"/corpus-maps/* >"$work/reached"

# How much of what a found book reaches is new.
new() {
    comm -23 "$work/queue-maps/$1" "$work/reached" | wc -l
}

# Those that bring the most for their bytes come first; what they reach is then
# no longer new.
for path in "$work"/queue/*; do
    name=$(basename "$path")
    echo "$(($(new "$name") * 100000 / $(stat -c %s "$path"))) $name"
done | sort -k1,1nr -k2 >"$work/order"
used=0
while read -r gain name; do
    if [ "$gain" -eq 0 ] || [ "$((used + 20))" -gt "$most" ]; then
        break
    fi
    if [ "$(new "$name")" -eq 0 ]; then
        continue
    fi
    afl-tmin -i "$work/queue/$name" -o "$work/small" -- ./target/harness >"$work/log" 2>&1
    ./with-length.sh "$work/small" >"$work/book"
    size=$(stat -c %s "$work/book")
    if [ $((used + size)) -gt "$most" ]; then
        continue
    fi
    used=$((used + size))
    sort -u "$work/reached" "$work/queue-maps/$name" >"$work/reached-now"
    mv "$work/reached-now" "$work/reached"
    mv "$work/book" "kept/$(sha256sum <"$work/book" | cut -c1-12).book"
done <"$work/order"
echo "kept: $(find kept -name '*.book' | wc -l) books, $used bytes of them new"
