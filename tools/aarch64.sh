#!/usr/bin/env bash
# Builds the library for aarch64 Linux into bindings/build/aarch64, packs it as `make dist` does, and, where qemu is there,
# runs the C example, random calls and tests of the C++ bindings with it.
#   tools/aarch64.sh [CALLS]
# Needs rt and a cross compiler (Debian: gcc-aarch64-linux-gnu g++-aarch64-linux-gnu qemu-user).
set -euo pipefail
cd "$(dirname "$0")/.."
calls=${1:-20000}
kit=$(dirname "$(rt doc)")
out=$PWD/bindings/build/aarch64
cross=aarch64-linux-gnu
for needed in "$cross-gcc" "$cross-g++" "$cross-ar"; do
  command -v "$needed" >/dev/null || { echo "tools/aarch64.sh: $needed is missing" >&2; exit 2; }
done
mkdir -p "$out"
. tools/static_library.sh
(cd crates/sysmem && rt lib) >"$out/lib.log" 2>&1 || { tail -40 "$out/lib.log"; exit 1; }
lower crates/sysmem sysmem "$(uses_of sysmem)" "$kit/toolchain" src/lib.rt "$out/crate.a" \
  --crate-type staticlib --target aarch64-unknown-linux-gnu
rm -f "$out/heap.a"
"$cross-gcc" -O2 -fPIC -Wall -Wextra -Werror -c bindings/packaging/heap.c -o "$out/heap.o"
"$cross-ar" rcs "$out/heap.a" "$out/heap.o"
make -s -C bindings dist build=build/aarch64 platform=aarch64-linux archive="$out/crate.a" heap="$out/heap.a" \
  CC="$cross-gcc" AR="$cross-ar" program=/none
"$cross-gcc" -std=c99 -static -I include -o "$out/camera" examples/c/camera.c "$out/libsysmem.a"
"$cross-g++" -std=c++17 -static -O1 -I include -o "$out/random" tools/random_calls.cpp "$out/libsysmem.a"
for test in values crowd; do
  "$cross-g++" -std=c++17 -static -O1 -I include -I bindings/cpp -o "$out/$test" "bindings/cpp/tests/$test.cpp" \
    "$out/libsysmem.a" -pthread
done
if command -v qemu-aarch64 >/dev/null; then
  qemu-aarch64 "$out/camera" | diff examples/c/camera.out -
  qemu-aarch64 "$out/random" "$calls"
  qemu-aarch64 "$out/values"
  qemu-aarch64 "$out/crowd"
  echo "aarch64: the example, $calls random calls and two tests of the C++ bindings under qemu: as they should be"
else
  echo "aarch64: built, not run (Debian: apt-get install qemu-user)"
fi
ls -l bindings/build/aarch64/*.tar.gz
