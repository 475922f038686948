#!/usr/bin/env bash
# Runs a compositor's day in miniature over the library (tools/soak.c): memory must not grow but for a row for each client, nor the
# time of an event. 200 million events take some minutes of one processor; 5 million some seconds.
#   tools/soak.sh [EVENTS [LIBRARY]]      crates/sysmem/out/libsysmem.a if no library is named; with 50 million events or more,
#                                         the time of an event is looked at too
set -euo pipefail
cd "$(dirname "$0")/.."
events=${1:-200000000}
library=${2:-crates/sysmem/out/libsysmem.a}
[ -f "$library" ] || { echo "tools/soak.sh: there is no $library; (cd crates/sysmem && rt lib) makes it" >&2; exit 2; }
kit=$(dirname "$(dirname "$(readlink -f "$(command -v rt)")")")
room=$(mktemp -d)
trap 'rm -r "$room"' EXIT
cc -std=gnu11 -O2 -Wall -Wextra -Werror -I include -o "$room/soak" tools/soak.c "$library" "$kit/c/liblibc_c.a"
steady=
[ "$events" -lt 50000000 ] || steady=steady
"$room/soak" "$events" $steady
