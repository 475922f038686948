#!/usr/bin/env bash
# Makes more events than 32 bits count on one core (tools/long_history.c): some five minutes of one processor.
#   tools/long_history.sh [EVENTS [LIBRARY]]      4,294,967,000 events; crates/sysmem/out/libsysmem.a if no library is named
set -euo pipefail
cd "$(dirname "$0")/.."
library=${2:-crates/sysmem/out/libsysmem.a}
[ -f "$library" ] || { echo "tools/long_history.sh: there is no $library; (cd crates/sysmem && rt lib) makes it" >&2; exit 2; }
kit=$(dirname "$(dirname "$(readlink -f "$(command -v rt)")")")
room=$(mktemp -d)
trap 'rm -r "$room"' EXIT
cc -std=gnu11 -O2 -Wall -Wextra -Werror -I include -o "$room/long_history" tools/long_history.c "$library" "$kit/c/liblibc_c.a"
"$room/long_history" "${1:-4294967000}"
