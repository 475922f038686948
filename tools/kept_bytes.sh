#!/usr/bin/env bash
# Measures the bytes that a core keeps of a client, a node, a tracker and so on (tools/kept_bytes.c), over the library.
#   tools/kept_bytes.sh [LIBRARY]      crates/sysmem/out/libsysmem.a if no library is named
set -euo pipefail
cd "$(dirname "$0")/.."
library=${1:-crates/sysmem/out/libsysmem.a}
[ -f "$library" ] || { echo "tools/kept_bytes.sh: there is no $library; (cd crates/sysmem && rt lib) makes it" >&2; exit 2; }
kit=$(dirname "$(dirname "$(readlink -f "$(command -v rt)")")")
room=$(mktemp -d)
trap 'rm -r "$room"' EXIT
cc -std=gnu11 -O2 -Wall -Wextra -Werror -I include -o "$room/kept_bytes" tools/kept_bytes.c "$library" "$kit/c/liblibc_c.a"
"$room/kept_bytes"
