#!/bin/sh
# symbols.sh BUILD: both libraries have the calls of the header, and show no other name; the shared one wants of the system memory alone.
set -eu
header=$(dirname "$0")/../zilqumet.h
said=$(grep -v '^ \*\|^/\*' "$header" | grep -o '\bzq_[a-z_]*(' | tr -d '(' | sort -u)
static=$(nm -g --defined-only "$1/libzilqumet.a" | awk 'NF == 3 { print $3 }' | sort -u)
shared=$(nm -D --defined-only "$1/libzilqumet.so.1" | awk '{ print $3 }' | sort -u)
[ "$said" = "$static" ] || { echo "symbols: the static library has other names than the header"; echo "$said" > "$1/said"; echo "$static" | diff "$1/said" - || true; exit 1; }
[ "$said" = "$shared" ] || { echo "symbols: the shared library has other names than the header"; echo "$said" > "$1/said"; echo "$shared" | diff "$1/said" - || true; exit 1; }
wanted=$(nm -D --undefined-only "$1/libzilqumet.so.1" | awk '$1 == "U" { print $2 }' | sed 's/@.*//' | sort | tr '\n' ' ')
for name in $wanted; do
    case "$name" in malloc|realloc|free|calloc|memcpy|memmove|memset|memcmp|bcmp|strlen) ;; *) echo "symbols: the shared library wants $name"; exit 1 ;; esac
done
echo "symbols: $(echo "$said" | wc -l) calls; of the system: $wanted"
