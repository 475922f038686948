# Functions that build a static library or a program over the repository's crates, outside `rt ci`. To be read by
# another script, from the folder that has the library's folder, with `kit` (the toolchain's folder) and `out` set, and `jobs`
# if more than two are wanted. With `built` set, the crates below are those that `rt ci` left: their statements, which only
# crates over the same run's libraries can use. Without it, `rt lib` proves those that have changed.
#
# The gate refuses Rattle files that stand in no crate, so such a library's files end in `.rattle` and are made into a
# crate for the build.

room=
trap '[ -z "$room" ] || rm -r "$room"' EXIT

# Makes a crate of the folder, in a new folder whose name it leaves in `room`.
crate_of() { # name
    room=$(mktemp -d)
    (cd "$1" && find . -type f) | while read -r file; do
        mkdir -p "$room/$(dirname "$file")"
        case $file in
            ./src/*.rattle) cp "$1/$file" "$room/${file%.rattle}.rt" ;;
            ./proofs/*.rattle | ./specs/*.rattle) cp "$1/$file" "$room/${file%.rattle}.antt" ;;
            *) cp "$1/$file" "$room/$file" ;;
        esac
    done
}

# The crates that this one uses, by crates.txt.
uses_of() { # name
    sed -n "s/^$1\( [^:]*\)\{0,1\}://p" "$(git rev-parse --show-toplevel)/crates.txt"
}

# Those of `below`, one or more words, and all crates below them, each once.
all_of() { # crates below
    found=$(echo "$1" | tr ' ' '\n' | sort -u)
    while :; do
        more=$(for upper in $found; do echo "$upper $(uses_of "$upper")"; done | tr ' ' '\n' | sed '/^$/d' | sort -u)
        [ "$more" != "$found" ] || break
        found=$more
    done
    echo "$found"
}

# Proves the crate in the folder and lowers it, over libraries that stand in out/ or in the toolchain's folder.
lower() { # folder, name, libraries, toolchain, root file, what is written, more words
    folder=$1 name=$2 libraries=$3 toolchain=$4 root=$5 to=$6
    shift 6
    crates=$(git rev-parse --show-toplevel)/crates
    for library in $libraries std core; do
        if [ -e "$crates/$library/out/rlib/$library.rlib" ]; then
            set -- --extern "$library=$crates/$library/out/rlib/$library.rlib" "$@"
        else
            set -- --extern "$library=$kit/rlibs/$library.rlib" "$@"
        fi
    done
    (cd "$folder" && "$kit/bin/rattle" build --crate-name "$name" "$root" --jobs "${jobs:-2}" "$@" \
        -L dependency="$kit/rlibs" \
        --antt-project "$kit/rattle/logic/antt-project.json" --logic-built "$kit/logic_built" \
        --incremental "$out/$name.kept" --toolchain "$toolchain" -o "$to") > "$out/$name.log" 2>&1 ||
        { tail -40 "$out/$name.log"; exit 1; }
    tail -1 "$out/$name.log"
}

# Sees that the libraries of these crates, and of those that they use, are there.
have() { # crates, log
    if [ -z "${built-}" ]; then
        for upper in $1; do
            (cd "$(git rev-parse --show-toplevel)/crates/$upper" && rt lib --jobs "${jobs:-2}") > "$2" 2>&1 ||
                { tail -40 "$2"; exit 1; }
        done
        return
    fi
    folder=$(git rev-parse --show-toplevel)/crates
    for upper in $(all_of "$1"); do
        [ ! -d "$folder/$upper" ] || [ -d "$folder/$upper/out/rlib/$upper.rlib" ] ||
            { echo "there is no library of $upper: \`rt ci\` leaves it" >&2; exit 1; }
    done
}

# Makes a crate of the folder, proves it and lowers it, over the crates of `below` and those that they use.
build() { # name, crates below, toolchain, root file, what is written, more words
    made=$1 below=$2 kept=$3 first=$4 written=$5
    shift 5
    have "$below" "$out/$made.log"
    crate_of "$made"
    lower "$room" "$made" "$(all_of "$below")" "$kept" "$first" "$written" "$@"
    rm -r "$room"
    room=
}
