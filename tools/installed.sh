#!/usr/bin/env bash
# Installs the bindings into a temporary prefix, and builds there a program of fifteen lines in C, C++ and Rust as their users
# would: by pkg-config (against the shared library and the static one), by CMake (both) and by cargo; and the program of
# docs/TUTORIAL.md. Then it unpacks what `make dist` packs, twice the same, checks its checksums, and builds the C++ program
# against that. With dpkg-buildpackage it also makes the packages for Debian, and installs, uses and removes them in a folder. It
# needs cc, c++, make, pkg-config, cmake and cargo, and crates/sysmem/out/libsysmem.a, which `rt lib` leaves.
set -euo pipefail
cd "$(dirname "$0")/.."
top=$PWD
room=$(mktemp -d)
trap 'rm -rf "$room"' EXIT
prefix=$room/prefix
say() { echo "installed: $*"; }

cat >"$room/app.cpp" <<'END'
#include <sysmem.hpp>
#include <cstdio>
int main() {
    auto service = sysmem::Service::open().value();
    auto app = service.join("app").value();
    auto root = app.open_root("root").value();
    {
        auto display = service.join("display").value();
        root.duplicate("display").value().give(display.id()).value();
    } // the display vanishes
    auto told = root.sync();
    std::puts(told ? "well" : told.error().message().c_str());
    return 0;
}
END
cat >"$room/app.c" <<'END'
#include <sysmem.h>
#include <stdio.h>
int main(void) {
    sysmem_core core = {0};
    sysmem_call call = {0};
    sysmem_reply reply;
    char name[32];
    uint64_t count;
    sysmem_open(&core, 16, 1000, 64, 8, 64, 64);
    call.kind = SYSMEM_SYNC;
    sysmem_step(&core, 7, &call, &reply);
    sysmem_name(SYSMEM_ABOUT_REFUSAL, reply.detail, name, sizeof name, &count);
    printf("%.*s\n", (int)count, name);
    return (int)sysmem_close(&core);
}
END
mkdir -p "$room/rust/src"
cat >"$room/rust/src/main.rs" <<'END'
use sysmem::*;
fn main() -> Result<(), Error> {
    let service = Service::open(Options::default())?;
    let app = service.join()?;
    let root = app.open_root("root")?;
    {
        let display = service.join()?;
        root.duplicate("display")?.give(display.id())?;
    } // the display vanishes
    match root.sync() {
        Ok(()) => println!("well"),
        Err(told) => println!("{told}"),
    }
    Ok(())
}
END
lost="closed: lost, by node 1.0 (display)"
expect() { # what is wanted, the program and its words
  local wanted=$1 told
  shift
  told=$("$@")
  [ "$told" = "$wanted" ] || { echo "$1: $told"; exit 1; }
}

# One version stands everywhere.
version=$(sed -n 's/^version := //p' bindings/Makefile)
for file in bindings/rust/Cargo.toml bindings/packaging/debian/changelog README.md; do
  grep -qwF "$version" $file || { echo "$file is of another version than $version" && exit 1; }
done
[ "$version" = "$(sed -n 's/^#define SYSMEM_VERSION_M*[A-Z]* //p' include/sysmem.h | paste -sd .)" ]

make -s -C bindings install prefix="$prefix" >"$room/log"
export PKG_CONFIG_PATH=$prefix/lib/pkgconfig
[ "$(pkg-config --modversion sysmem)" = "$version" ]
# The library lies in no folder that the loader looks in by itself.
c++ -std=c++17 "$room/app.cpp" $(pkg-config --cflags --libs sysmem) -Wl,-rpath,"$prefix/lib" -o "$room/app"
expect "$lost" "$room/app"
cc -std=c99 "$room/app.c" $(pkg-config --cflags --libs sysmem) -Wl,-rpath,"$prefix/lib" -o "$room/app"
expect NoSuchClient "$room/app"
c++ -std=c++17 "$room/app.cpp" $(pkg-config --cflags sysmem) "$prefix/lib/libsysmem.a" -o "$room/app"
expect "$lost" "$room/app"
say "pkg-config: C and C++, shared and static"

# A library of another version than the header: `open` says so.
cat >"$room/open.cpp" <<'END'
#include <sysmem.hpp>
#include <cstdio>
int main() { std::puts(sysmem::Service::open().error().message().c_str()); }
END
cp -r "$prefix/include" "$room/newer"
sed -i 's/^#define SYSMEM_VERSION_MAJOR .*/#define SYSMEM_VERSION_MAJOR 7/' "$room/newer/sysmem.h"
c++ -std=c++17 "$room/open.cpp" -I"$room/newer" $(pkg-config --libs sysmem) -Wl,-rpath,"$prefix/lib" -o "$room/app"
is=$(printf '%d%02d%02d' ${version//./ } | sed 's/^0*//') least=$(echo "$version" | cut -d . -f 2)
expect "bad limits: the library's version is $is, and must be $((70000 + 100 * least)) to 79999" "$room/app"
say "the versions of header and library"

# The program of the tutorial prints what its page shows.
blocks() { # the code blocks of this language on the page of the tutorial
  awk -v language="$1" '/^```/ { is_in = !is_in; named = substr($0, 4); next } is_in && named == language' docs/TUTORIAL.md
}
blocks cpp >"$room/tour.cpp"
c++ -std=c++17 "$room/tour.cpp" $(pkg-config --cflags --libs sysmem) -Wl,-rpath,"$prefix/lib" -pthread -o "$room/tour"
expect "$(blocks '')" "$room/tour"
say "the tutorial"

cat >"$room/CMakeLists.txt" <<'END'
cmake_minimum_required(VERSION 3.16)
project(app CXX)
find_package(sysmem 0.1 REQUIRED)
find_package(Threads REQUIRED)
add_executable(with_shared app.cpp)
target_link_libraries(with_shared sysmem::sysmem Threads::Threads)
add_executable(with_static app.cpp)
target_link_libraries(with_static sysmem::static Threads::Threads)
END
cmake -S "$room" -B "$room/cmake" -DCMAKE_PREFIX_PATH="$prefix" -DCMAKE_CXX_STANDARD=17 >"$room/log"
cmake --build "$room/cmake" >"$room/log" 2>&1 || { cat "$room/log"; exit 1; }
expect "$lost" "$room/cmake/with_shared"
expect "$lost" "$room/cmake/with_static"
say "CMake: shared and static"

cat >"$room/rust/Cargo.toml" <<END
[package]
name = "app"
version = "0.1.0"
edition = "2021"
[dependencies]
sysmem = { path = "$prefix/share/sysmem/rust" }
END
(cd "$room/rust" && env -u SYSMEM_LIB_DIR -u RATTLE_KIT cargo build --offline --quiet)
expect "$lost" "$room/rust/target/debug/app"
say "cargo"

make -s -C bindings dist >"$room/log"
make -s -C bindings dist build="$room/again" >"$room/log"
cmp bindings/build/sysmem-*.tar.gz "$room"/again/sysmem-*.tar.gz
mkdir "$room/dist"
tar -C "$room/dist" -xzf bindings/build/sysmem-*.tar.gz
cd "$room/dist"/sysmem-*
sha256sum --quiet -c SHA256SUMS
for crate in indexmap once_cell slab; do
  ls share/doc/sysmem/licenses/"$crate"-LICENSE* >"$room/log" || exit 1
done
export PKG_CONFIG_PATH=$PWD/lib/pkgconfig
c++ -std=c++17 "$room/app.cpp" $(pkg-config --cflags --libs sysmem) -Wl,-rpath,"$PWD/lib" -o "$room/app"
expect "$lost" "$room/app"
exported=$(nm -D --defined-only lib/libsysmem.so | awk '$2 == "T" { sub(/@.*/, "", $3); print $3 }' | sort)
declared=$(grep -o '^uint32_t sysmem_[a-z_]*' "$top/include/sysmem.h" | cut -d ' ' -f 2 | sort)
[ "$exported" = "$declared" ] || { diff <(echo "$exported") <(echo "$declared"); exit 1; }
say "the archive that is passed on, twice the same, its licences, and the names that the shared library exports"

command -v dpkg-buildpackage >/dev/null || { say "no dpkg-buildpackage: the packages for Debian were left out"; exit 0; }
make -s -C "$top/bindings" deb build="$room/again" >"$room/log" 2>&1 || { tail "$room/log"; exit 1; }
root=$room/root
mkdir -p "$root"/var/lib/dpkg/{info,updates,triggers}
touch "$root"/var/lib/dpkg/{status,available}
in_root() { # words of dpkg
  $([ "$(id -u)" = 0 ] || echo fakeroot) dpkg --root="$root" --force-not-root --force-depends --log=/dev/null "$@" \
    >"$room/log" 2>&1 || { cat "$room/log"; exit 1; }
}
in_root -i "$room"/again/deb/*.deb
export PKG_CONFIG_PATH=$root/usr/lib/pkgconfig
c++ -std=c++17 "$room/app.cpp" $(pkg-config --cflags --libs sysmem) -Wl,-rpath,"$root/usr/lib" -o "$room/app"
expect "$lost" "$room/app"
in_root -P $(cd "$room/again/deb" && for file in *.deb; do echo "${file%%_*}"; done)
[ -z "$(find "$root" -type f ! -path "$root/var/*")" ]
say "packages for Debian, installed, used and removed"
