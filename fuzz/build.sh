#!/usr/bin/env bash
# Builds the fuzz target at fuzz/target/harness.
set -euo pipefail
cd "$(dirname "$0")"

archive=../target/staticlib/libilhuepatl.a
if [ ! -e "$archive" ]; then
    echo "target/staticlib/libilhuepatl.a is missing: run 'tools/archive' at the repository root" >&2
    exit 2
fi
if ! command -v afl-clang-fast >/dev/null; then
    echo "afl-clang-fast is missing: install Debian's package afl++" >&2
    exit 2
fi

# The proved planner is native code without instrumentation, so the fuzzer
# learns where an input leads from the second planner alone. These are the
# flags by which rustc has LLVM count the edges, in the way that the AFL++
# runtime (linked by afl-clang-fast below) expects.
RUSTFLAGS="-C passes=sancov-module -C codegen-units=1 \
    -C llvm-args=-sanitizer-coverage-level=3 \
    -C llvm-args=-sanitizer-coverage-trace-pc-guard" \
    cargo build --release --offline --manifest-path second-c/Cargo.toml

# Only the second planner's edges are to count, so the harness itself is built
# with an ordinary compiler.
mkdir -p target
clang -O2 -Wall -Wextra -c compare.c -o target/compare.o
afl-clang-fast -O2 -Wall -Wextra -o target/harness harness.c target/compare.o \
    second-c/target/release/libsecond_c.a "$archive" -lpthread -ldl -lm
