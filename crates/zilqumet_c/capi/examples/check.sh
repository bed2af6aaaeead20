#!/bin/sh
# check.sh CC ROOT: the examples, compiled against the library that is installed in ROOT, print what is stored in expected/.
set -eu
cd "$(dirname "$0")"
flags=$(PKG_CONFIG_PATH="$2/lib/pkgconfig" pkg-config --cflags --libs zilqumet)
for name in tree sanitise stream; do
    # shellcheck disable=SC2086
    $1 -std=gnu11 -Wall -Wextra -Wpedantic -Werror "$name.c" $flags "-Wl,-rpath,$2/lib" -o "$2/$name"
    "$2/$name" < expected/page.html | cmp - "expected/$name.txt"
done
if echo '<svg>' | "$2/tree" 2> "$2/refused"; then echo "the example tree took a page with svg"; exit 1; fi
echo "tree: foreign svg at 0" | cmp - "$2/refused"
echo "examples in C: tree, sanitise, stream"
