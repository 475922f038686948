#!/bin/sh
# Runs the examples against a daemon under sanitizers, that of three processes five times; the program of the page is that of
# examples/first.cpp, and prints what the page shows.
#   tests/examples.sh BUILD THREE [PAGE]   without the page, the one of three processes alone
set -e
build=$1 three=$2 page=$3
run=$(mktemp -d)
"$build/sysmemd.address" --socket "$run/s" &
daemon=$!
trap 'kill $daemon; wait $daemon; rm -rf "$run"' EXIT
export SYSMEM_SOCKET="$run/s"
until "$build/sysmemctl" nodes >/dev/null 2>&1; do sleep 0.05; done
for i in 1 2 3 4 5; do
  timeout 300 "$three" | sort | diff examples/three.out -
done
[ -n "$page" ] || exit 0
timeout 300 "$build/raw" | diff examples/raw.out -
blocks() { # the code blocks of this language on the page
  awk -v language="$1" '/^```/ { is_in = !is_in; named = substr($0, 4); next } is_in && named == language' "$page"
}
blocks cpp | diff examples/first.cpp -
timeout 300 "$build/first" >"$run/told" 2>/dev/null
blocks '' | diff - "$run/told"
echo "examples ok"
