#!/usr/bin/env bash
# Builds the library for C, C++ and Rust, and runs the tests of the bindings and of programs built against an installed prefix.
#   tools/bindings_test.sh [-j LANES] [--built]
# It proves crates/sysmem and lowers it. `rt lib` first proves the crates below it that have changed since `rt lib` or `rt check`
# left them. With --built they are those that `rt ci` left, and none is proved again.
set -euo pipefail
cd "$(dirname "$0")/.."
lanes=$(nproc) built=
while [ $# -gt 0 ]; do
  case $1 in
    -j) lanes=${2-} && shift ;;
    --built) built=1 ;;
    *) echo "bindings_test.sh: $1 is not known" >&2 && exit 2 ;;
  esac
  shift
done
tools/bindings_needs.sh
kit=$(dirname "$(rt doc)") jobs=$lanes
. tools/static_library.sh
room=$(mktemp -d) # goes by the trap of static_library.sh
out=$room log=$room/log
if [ -n "$built" ]; then
  below=$(uses_of sysmem)
  have "$below" "$log"
  mkdir -p crates/sysmem/out
  lower crates/sysmem sysmem "$(all_of "$below")" "$kit/toolchain" src/lib.rt out/libsysmem.a \
    --links sysmem= --crate-type staticlib --backend llvm
else
  (cd crates/sysmem && rt lib --jobs "$lanes") >"$log" 2>&1 || { tail -n 40 "$log"; exit 1; }
  tail -n 1 "$log"
fi
# The toolchain drops `inline(always)` from a function that grew too large, and says nothing: each event is then a fifth slower.
nm crates/sysmem/out/libsysmem.a >"$log"
grep -q 'machine::Core::commit_early$' "$log" && ! grep 'machine::Core::commit$' "$log" || { echo 'Core::commit is not in line'; exit 1; }
bindings/wrong.py --apply
tools/c_interface.sh 100000 crates/sysmem/out/libsysmem.a
tools/long_history.sh 1000000
make -C bindings -k -j "$lanes" check >"$log" 2>&1 || { grep -v '^touch' "$log" | tail -n 60; exit 1; }
echo "$(find bindings/build/ran -type f | wc -l) tests of the bindings passed"
tools/soak.sh 5000000 >"$log" 2>&1 || { cat "$log"; exit 1; }
tail -n 1 "$log"
for program in cmake pkg-config; do
  command -v "$program" >/dev/null || { echo "no $program: tools/installed.sh was left out"; exit 0; }
done
tools/installed.sh
