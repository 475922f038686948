#!/bin/sh
# Installs the library and the daemon into a temporary prefix, and builds there a client of this page by pkg-config and CMake.
#   tests/installed.sh TOP BUILD [WORD..]   the words are for the make of the bindings
set -e
top=$1 build=$2
shift 2
for program in pkg-config cmake; do
  command -v $program >/dev/null || { echo "no $program: not run"; exit 0; }
done
unset MAKEFLAGS MAKEOVERRIDES MFLAGS
run=$(mktemp -d)
trap 'rm -rf "$run"' EXIT
make -s -C "$top/bindings" install prefix="$run/p" "$@" >"$run/log"
make -s install prefix="$run/p" build="$build" >>"$run/log"
for file in bin/sysmemd bin/sysmemctl lib/systemd/user/sysmemd.service share/man/man1/sysmemd.1 share/fish/vendor_completions.d/sysmemd.fish; do
  [ -s "$run/p/$file" ]
done
grep -q "^ExecStart=$run/p/bin/sysmemd" "$run/p/lib/systemd/user/sysmemd.service"
# Each option and command of the helps is in the manual pages and the completions.
for name in sysmemd sysmemctl; do
  "$run/p/bin/$name" --help | grep -o -e '--[a-z-]*' -e '[a-z|]*|[a-z|]*' | tr '|' '\n' | sort -u >"$run/options"
  while read -r option; do
    for file in man/man1/$name.1 bash-completion/completions/$name zsh/site-functions/_$name fish/vendor_completions.d/$name.fish; do
      sed 's/\\-/-/g' "$run/p/share/$file" | grep -q -e "$option" -e "-l ${option#--} " -e "-l ${option#--}\$" ||
        { echo "$file lacks $option"; exit 1; }
    done
  done <"$run/options"
done
export PKG_CONFIG_PATH="$run/p/lib/pkgconfig"
c++ -std=c++17 examples/first.cpp $(pkg-config --cflags --libs sysmemd) -Wl,-rpath,"$run/p/lib" -o "$run/first"
cp examples/first.cpp "$run"
cat >"$run/CMakeLists.txt" <<'END'
cmake_minimum_required(VERSION 3.16)
project(first CXX)
set(CMAKE_CXX_STANDARD 17)
find_package(sysmemd 0.1 REQUIRED)
add_executable(first first.cpp)
target_link_libraries(first sysmemd::client)
END
cmake -S "$run" -B "$run/cmake" -DCMAKE_PREFIX_PATH="$run/p" >"$run/log"
cmake --build "$run/cmake" >"$run/log" 2>&1 || { cat "$run/log"; exit 1; }
"$run/p/bin/sysmemd" --socket "$run/s" &
daemon=$!
export SYSMEM_SOCKET="$run/s"
until "$run/p/bin/sysmemctl" nodes >"$run/log" 2>&1; do sleep 0.05; done
for program in "$run/first" "$run/cmake/first"; do
  "$program" 2>"$run/log" | tail -1 | grep -q 'closed: lost, by node 1.0 (display)'
done
if command -v cargo >/dev/null; then
  mkdir -p "$run/rust/src"
  cp rust/examples/three.rs "$run/rust/src/main.rs"
  printf '[package]\nname = "app"\nversion = "0.0.0"\nedition = "2021"\n[dependencies]\nsysmem_remote = { path = "%s" }\n[workspace]\n' \
    "$run/p/share/sysmemd/rust" >"$run/rust/Cargo.toml"
  (cd "$run/rust" && CARGO_TARGET_DIR="$run/rust/target" cargo build --offline --quiet)
  "$run/rust/target/debug/app" | sort | diff examples/three.out -
fi
kill $daemon
wait $daemon
echo "installed ok"
