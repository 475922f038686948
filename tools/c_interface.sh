#!/usr/bin/env bash
# Builds libsysmem.a and the program of examples/c, compares what it writes with the output beside it,
# holds the header against the library's layouts, and makes random calls under the address and
# undefined-behaviour sanitizers. C++ and Rust: make -C bindings check.
#   tools/c_interface.sh [CALLS [LIBRARY]]      400,000 calls; `rt lib` makes the library first if none is named
set -euo pipefail
cd "$(dirname "$0")/.."
calls=${1:-400000}
kit=$(dirname "$(dirname "$(readlink -f "$(command -v rt)")")")
room=$(mktemp -d)
trap 'rm -r "$room"' EXIT
library=${2:-crates/sysmem/out/libsysmem.a}
[ -n "${2-}" ] || (cd crates/sysmem && rt lib >"$room/log" 2>&1) || { cat "$room/log"; exit 1; }
libraries=("$library" "$kit/c/liblibc_c.a")
strict=(-Wall -Wextra -pedantic -Werror -I include)

cc -std=c99 "${strict[@]}" -x c -fsyntax-only include/sysmem.h
c++ -std=c++17 "${strict[@]}" -x c++ -fsyntax-only include/sysmem.h
cc -std=c11 "${strict[@]}" -fsyntax-only tools/layout.c

cc -std=c99 "${strict[@]}" -o "$room/c" examples/c/camera.c "${libraries[@]}"
"$room/c" >"$room/c.out"
diff examples/c/camera.out "$room/c.out"

c++ -std=c++17 "${strict[@]}" -g -O1 -fsanitize=address,undefined -fno-sanitize-recover=all \
  -o "$room/random" tools/random_calls.cpp "${libraries[@]}"
"$room/random" "$calls"
echo "the header, a program and $calls random calls: as they should be"
