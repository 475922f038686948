#!/bin/sh
# Builds the page, compares its module with the program on 1,000 random scripts, tests it in Chromium and, where it is there, in
# Firefox, prints sizes and times, and leaves the page as docs/try.html. The program is built first if `rt run` has not left it.
# Ends with the status of what failed.
#   tools/web.sh [--built] [SCREENSHOTS]     needs rt, python3, node and chromium; --built: over the crates that `rt ci` left
set -eu
cd "$(dirname "$0")/../web"
if [ "${1:-}" = --built ]; then
    export built=1 # for tools/static_library.sh, which build.sh reads
    shift
fi
for needed in node "${CHROMIUM:-chromium}"; do
    command -v "$needed" > /dev/null || { echo "tools/web.sh: $needed is missing (Debian: apt-get install chromium nodejs)" >&2; exit 2; }
done
./build.sh
python3 narrow_test.py out
program=../crates/sysmem_main/out/sysmem_main
if [ ! -x "$program" ]; then
    (cd ../crates/sysmem_main && rt run -- run) < /dev/null > out/program.log 2>&1 || { tail -40 out/program.log; exit 1; }
fi
rm -rf out/scripts
../tools/random_scripts.py "$program" out/scripts 1000
node module_test.mjs out/sysmem.wasm ../examples "$program" out/scripts
node test.mjs chromium out/sysmem.html out/small.html ../examples "$@"
if command -v "${FIREFOX:-firefox-esr}" > /dev/null; then
    node --experimental-websocket test.mjs firefox out/sysmem.html out/small.html ../examples "$@"
else
    echo "firefox: not there, not tried (Debian: apt-get install firefox-esr)"
fi
printf '%s bytes, %s with gzip: sysmem.wasm\n' "$(wc -c < out/sysmem.wasm)" "$(gzip -9c out/sysmem.wasm | wc -c)"
cp out/sysmem.html ../docs/try.html
