#!/bin/sh
# check.sh PYTHON: the examples print what those in C do.
set -eu
cd "$(dirname "$0")"
expected=../../capi/examples/expected
for name in tree sanitise stream; do
    $1 "$name.py" < $expected/page.html | cmp - "$expected/$name.txt"
done
if echo '<svg>' | $1 tree.py 2> /dev/null; then echo "the example tree took a page with svg"; exit 1; fi
echo "examples in Python: tree, sanitise, stream"
