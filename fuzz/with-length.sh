#!/usr/bin/env bash
# with-length.sh FILE: writes the book to standard output with its length field
# made right, where it has one.
set -euo pipefail
size=$(stat -c %s "$1")
if [ "$size" -lt 2 ] || [ "$size" -gt 65535 ]; then
    cat "$1"
else
    # printf reads \ooo as one byte.
    printf "\\$(printf %03o $((size / 256)))\\$(printf %03o $((size % 256)))"
    tail -c +3 "$1"
fi
