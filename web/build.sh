#!/bin/sh
# Builds the page into out/sysmem.html: one file, which has the proved core in it as WebAssembly.
#
#   build.sh          needs rt and python3
#
# The static library page_calls is proved and lowered to LLVM's language as for x86-64. The toolchain's
# own clang then compiles that for WebAssembly, with heap.c in the place of malloc.
set -eu
cd "$(dirname "$0")"
kit=$(dirname "$(rt doc)")
out=$PWD/out
tools=$out/toolchain
clang=$kit/toolchain/bin/clang
. ../tools/static_library.sh

# A toolchain that keeps the module that it is given.
rm -rf "$tools"
mkdir -p "$tools/bin"
ln -s "$kit/toolchain/lib" "$tools/lib"
for tool in "$kit"/toolchain/bin/*; do ln -s "$tool" "$tools/bin/"; done
rm "$tools/bin/clang"
cat > "$tools/bin/clang" <<END
#!/bin/sh
cp module.bc "$out/"
exec "$clang" "\$@"
END
chmod +x "$tools/bin/clang"

build page_calls "script_explain script_draw outcome_runs" "$tools" src/lib.rt "$out/page.a" --crate-type staticlib
cd "$out"
"$clang" -x ir -S -emit-llvm -O0 -Xclang -disable-llvm-passes module.bc -o module.ll
python3 ../narrow.py module.ll > narrow.ll
wasm="--target=wasm32-unknown-unknown -mcpu=lime1 -mbulk-memory --no-default-config -ffunction-sections -fdata-sections"
"$clang" $wasm -mllvm -no-trap-after-noreturn -mllvm -trap-unreachable -Os -Xclang -fmerge-functions -c -x ir narrow.ll -o page.o
"$clang" $wasm -ffreestanding -nostdinc -O2 -Wall -Wextra -Werror -c ../heap.c -o heap.o
ln -sf "$kit/toolchain/bin/ld.lld" wasm-ld
link() { # what is written, more words
    to=$1
    shift
    ./wasm-ld --no-entry --stack-first -z stack-size=1048576 --export=sysmem_explain --export=sysmem_draw --export=sysmem_explore \
        --gc-sections --strip-all --compress-relocations "$@" page.o heap.o -o "$to"
}
link sysmem.wasm
# For the test of refused memory: the same with four MiB at most.
link small.wasm --max-memory=4194304
sources=$(../../tools/page_sources.py)
python3 ../pack.py .. sysmem.wasm ../../examples sysmem.html "$sources"
python3 ../pack.py .. small.wasm ../../examples small.html "$sources"
ls -l sysmem.wasm sysmem.html
