#!/bin/sh
# header.sh CC CXX: the header is C89 and C++98 without a warning, also twice in one file.
set -eu
cd "$(dirname "$0")/.."
printf '#include "zilqumet.h"\n#include "zilqumet.h"\nint main(void) { zq_page p = ZQ_EMPTY; zq_options o = ZQ_DEFAULTS; return p.held != NULL || o.flags; }\n' \
    > "${TMPDIR:-/tmp}/zilqumet-header.c"
$1 -std=c89 -Wall -Wextra -Wpedantic -Werror -I. -fsyntax-only "${TMPDIR:-/tmp}/zilqumet-header.c"
$2 -x c++ -std=c++98 -Wall -Wextra -Wpedantic -Werror -I. -fsyntax-only "${TMPDIR:-/tmp}/zilqumet-header.c"
rm -f "${TMPDIR:-/tmp}/zilqumet-header.c"
echo "header: C89 and C++98"
