#!/bin/sh
# What a call costs through the bindings: the jobs of the t rows by sysmem_step, by the values in C++ and in
# Rust, and by the plain core under a Mutex, in 1, 2 and 4 threads. It writes BINDINGS.md.
#
#   bindings.sh [--rounds N]
#
# It needs what `make -C ../bindings` builds, cargo, and for the instructions valgrind.
set -eu
cd "$(dirname "$0")"
rounds=9
[ "${1:-}" = --rounds ] && rounds=$2
mkdir -p out
make -s -C ../bindings
c++ -std=c++17 -O3 -I ../include -I ../bindings/cpp bindings/calls.cpp ../bindings/build/libsysmem.a -pthread -o out/calls
(cd bindings && SYSMEM_LIB_DIR=$PWD/../../bindings/build cargo build --release --offline --quiet --target-dir ../target/bindings)
rust=target/bindings/release/binding-calls
run() { # side, job, threads, turns
    case $1 in c | cpp) out/calls "$@" ;; *) $rust "$@" ;; esac
}
turns_of() { case $1 in sync) echo 400000 ;; open) echo 100000 ;; *) echo 40000 ;; esac; }
# The median of the rounds.
time_of() { # side, job, threads
    turns=$(($(turns_of "$2") / $3))
    for _ in $(seq "$rounds"); do run "$1" "$2" "$3" $turns; done |
        awk '{ print $1 / $2 }' | sort -n | sed -n "$((rounds / 2 + 1))p"
}
# Instructions an event: of twice as many turns less those of so many.
count_of() { # side, job
    command -v valgrind >/dev/null || return 0
    case $1 in c | cpp) program=out/calls ;; *) program=$rust ;; esac
    for turns in 10000 20000; do
        valgrind --tool=callgrind --callgrind-out-file=/dev/null $program "$1" "$2" 1 $turns 2>&1 |
            awk '/Collected/ { count = $4 } /^[0-9]+ [0-9]+$/ { events = $2 } END { print count, events }'
    done | awk 'NR == 1 { a = $1; b = $2 } NR == 2 { printf "%.0f", ($1 - a) / ($2 - b) }'
}
{
    cat <<'END'
# What a call costs through the bindings

`bench/bindings.sh` writes this page. An event of a job costs so many instructions, counted by valgrind in one thread, and so
many nanoseconds, the median of the rounds. Other programs on the machine move the times, not the instructions. A job is a Sync
again and again; a root that is opened and closed; a life of a collection of one buffer in 7 calls; or a frame, a handle that is
doubled, given, collected and dropped. With idle the giver is told when it has the only handle again; with descriptors both clients
also ask their `pending` each time. "C" is `sysmem_step` in one thread without a lock, "plain" the plain core under a `Mutex`.

| job | side | instructions | ns, 1 thread | 2 threads | 4 threads |
|---|---|---|---|---|---|
END
    for job in sync open life frame frame_idle frame_fd; do
        for side in c cpp rust plain; do
            case $job-$side in frame-plain | frame_*-c | frame_*-plain) continue ;; esac
            case $job in frame_idle) word="frame with idle" ;; frame_fd) word="frame with descriptors" ;; *) word=$job ;; esac
            case $side in c) name=C ;; cpp) name=C++ ;; rust) name=Rust ;; plain) name=plain ;; esac
            row="| $word | $name | $(count_of $side $job) |"
            for threads in 1 2 4; do
                if [ $side = c ] && [ $threads != 1 ]; then row="$row |"; else
                    row="$row $(time_of $side $job $threads | awk '{ printf "%.0f", $1 }') |"
                fi
            done
            echo "$row"
        done
    done
} >out/BINDINGS.md
mv out/BINDINGS.md BINDINGS.md
