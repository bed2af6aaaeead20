#!/bin/sh
# check.sh CARGO: the examples print what those in C do. In the folder of the workspace.
set -eu
expected=../capi/examples/expected
for name in tree sanitise stream; do
    $1 run --offline -q --example "$name" < $expected/page.html | cmp - "$expected/$name.txt"
done
if echo '<svg>' | $1 run --offline -q --example tree 2> /dev/null; then echo "the example tree took a page with svg"; exit 1; fi
echo "examples in Rust: tree, sanitise, stream"
