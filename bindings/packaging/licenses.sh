#!/bin/sh
# Copies the licence texts of the toolchain's crates that are compiled into a crate of this repository.
#
#   licenses.sh KIT FOLDER CRATE..     KIT is the toolchain's folder
set -eu
kit=$1 to=$2
shift 2
crates=$(dirname "$0")/../../crates.txt

# What a crate uses: one of the repository by crates.txt, one of the toolchain by its library.
uses() { # crate
    if grep -q "^$1[ :]" "$crates"; then
        sed -n "s/^$1\( [^:]*\)\{0,1\}: *//p" "$crates" | tr ' ' '\n'
    elif [ -f "$kit/rlibs/$1.rlib/format" ]; then
        sed -n 's/^dep //p' "$kit/rlibs/$1.rlib/format"
    fi
}

mkdir -p "$to"
left=$* seen=' '
while [ -n "$left" ]; do
    more=
    for crate in $left; do
        case $seen in *" $crate "*) continue ;; esac
        seen="$seen$crate "
        for file in "$kit/rattle/$crate"/LICENSE*; do
            [ ! -f "$file" ] || install -m 644 "$file" "$to/$crate-${file##*/}"
        done
        more="$more $(uses "$crate")"
    done
    left=$(echo $more)
done
