#!/bin/sh
# What it costs that the compiler zeroes each function's locals at entry: instructions an event of
# the proved core as it is built, and with the zeroing taken out of the functions of its own crates.
# Only to measure: a function may read a word of which it has written a part.
#
#   zeroed.sh [NAME..]        after run.sh; needs valgrind and python3
set -eu
cd "$(dirname "$0")"
kit=$(dirname "$(rt doc)")
room=$PWD/out/zeroed
rm -rf "$room"
mkdir -p "$room/bin"
# A toolchain that keeps the module that it is given, and the words that it is called with.
ln -s "$kit/toolchain/lib" "$room/lib"
for tool in "$kit"/toolchain/bin/*; do ln -s "$tool" "$room/bin/"; done
rm "$room/bin/clang"
cat > "$room/bin/clang" <<END
#!/bin/sh
if [ -f module.bc ]; then cp module.bc "$room/" && echo "\$@" > "$room/words"; fi
exec "$kit/toolchain/bin/clang" "\$@"
END
chmod +x "$room/bin/clang"
CORE_TOOLCHAIN=$room ./build_core.sh --only core_calls
cd "$room"
clang=$kit/toolchain/bin/clang
"$clang" -x ir -S -emit-llvm -O0 -Xclang -disable-llvm-passes module.bc -o module.ll
python3 - <<'END'
import re
OURS = re.compile(r'^define.*@"?(lifetime_core|core_state|alloc_event|forest_steps|forest_store|buffer_holds|buffer_pool|trackers|node_table|failure_domains)::')
ZEROED = re.compile(r"\s+call void @llvm\.memset\.p0\.i64\(ptr %r\d+, i8 0,")
ours = entry = False
with open("module.ll") as old, open("cut.ll", "w") as new:
    for line in old:
        if line.startswith("define"):
            ours = bool(OURS.match(line))
        if re.match(r"[\w.]+:", line):
            entry = line.startswith("start:")
        if not (ours and entry and ZEROED.match(line)):
            new.write(line)
END
words=$(sed "s/ module\.bc / cut.ll /; s/ module\.o / cut.o /; s,--sysroot=[^ ]*,," words)
"$clang" $words
"$kit/toolchain/bin/llvm-ar" rcs libcore_calls.a cut.o
cd ../..
RATTLE_KIT=$kit CORE_FOLDER=$room \
    cargo build --release --offline --quiet --jobs 2 --target-dir target/zeroed
count() { # program, names
    program=$1
    shift
    rm -f out/zeroed/counted*
    timeout 600 valgrind --tool=callgrind --toggle-collect=core_calls::play_timed \
        --callgrind-out-file=out/zeroed/counted "$program" --only ours --count "$@" > "$room/log" 2>&1
    for file in $(ls out/zeroed/counted.[0-9]* | sort -t. -k2 -n); do
        echo "$(sed -n 's/^desc: Trigger: Client Request: //p' "$file")|$(sed -n 's/^totals: //p' "$file")"
    done
}
count target/release/core-bench "$@" > "$room/as_built"
count target/zeroed/release/core-bench "$@" > "$room/without"
paste -d '|' "$room/as_built" "$room/without" | awk -F '|' '
    BEGIN { printf "%-30s %10s %10s %7s\n", "instructions an event", "as built", "without", "less" }
    { printf "%-30s %10.1f %10.1f %6.1f%%\n", $1, $3 / $2, $6 / $2, 100 * (1 - $6 / $3) }'
