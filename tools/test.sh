#!/usr/bin/env bash
usage='Runs every test, each program on its own input, and the examples. Nothing is proved: that is what `rt ci` does.

  tools/test.sh [-j LANES] [ITEM ..]

An ITEM is a crate that has tests or is a program, `edits`: that each wrong edit still applies, `transcripts`: that each
explanation is a transcript of its script, `help_texts`: that the man page and the completions have what the help has,
`sizes`: that the documents state the sizes of the tree and stay short, `shown_files`: that they show files as they are,
`page`: that docs/try.html was made of the sources as they are, or `unproved`: that tools/unproved.py builds a program. With none, all of them run. LANES of them (one for each
processor, if not said) are built and run side by side, in 1 GB each.

A line for each item counts its tests; what failed is printed above it. The last line is `N passed, M failed`, and the
status is 0 if nothing failed.'
set -euo pipefail
cd "$(dirname "$0")/.."
lanes=$(nproc)
items=()
while [ $# -gt 0 ]; do
  case $1 in
    -h | --help) echo "$usage" && exit ;;
    -j) lanes=${2-} && shift ;;
    -j*) lanes=${1#-j} ;;
    -*) echo "test.sh: $1 is not known; --help tells what it takes" >&2 && exit 2 ;;
    *) items+=("$1") ;;
  esac
  shift
done
[[ $lanes =~ ^[1-9][0-9]*$ ]] || { echo 'test.sh: -j takes a number of lanes' >&2 && exit 2; }

# All items. Those that take longest come first, so that no lane waits for them at the end.
first=(test_scripts sysmem_main test_script_rows test_core test_forest_rows)
mapfile -t others < <({
  grep -rl --include='*.rt' '^ *#\[test\]' crates/*/src
  ls crates/*/src/main.rt
} | cut -d / -f 2 | sort -u | grep -vxF "$(printf '%s\n' "${first[@]}")")
all=("${first[@]}" "${others[@]}" unproved edits transcripts help_texts sizes shown_files page)
[ ${#items[@]} -gt 0 ] || items=("${all[@]}")
declare -A is_item
for item in "${all[@]}"; do is_item[$item]=1; done
for item in "${items[@]}"; do
  [ -n "${is_item[$item]-}" ] || { echo "test.sh: $item has no tests" >&2 && exit 2; }
done
room=$(mktemp -d)
trap 'rm -rf "$room"' EXIT
export room

# Writes a case of a program: its name, its input, its words, and the output that is wanted, if there is one.
add_case() {
  cp "$2" "$room/$item.cases/$1"
  printf '%s\n' $3 >"$room/$item.cases/$1.args"
  [ -z "${4-}" ] || cp "$4" "$room/$item.cases/$1.stdout"
}

# Runs a program on its own input, and sysmem_main on the examples too.
try_program() {
  local crate="crates/$item" script
  mkdir "$room/$item.cases"
  add_case own "$crate/stdin" "$(cat "$crate/args" 2>/dev/null)" "$crate/stdout"
  if [ "$item" = sysmem_main ]; then
    for script in examples/*.script; do
      add_case "$(basename "$script" .script)" "$script" run "${script%.script}.out"
      add_case "$(basename "$script" .script)_explained" "$script" explain "${script%.script}.explained"
    done
    for event in 27 28; do
      add_case "camera_$event" examples/camera.script "draw --at $event" "examples/camera.$event.txt"
    done
    add_case apart examples/apart.actors threads examples/apart.out
    add_case alone examples/alone.actors 'threads --record' examples/alone.record
    add_case shared examples/shared.actors threads
    for script in examples/*.outcomes; do
      add_case "$(basename "$script" .outcomes)_outcomes" "${script%.outcomes}.actors" explore "$script"
    done
  fi
  (cd "$crate" && rt try --seconds 1500 --cases "$room/$item.cases")
}

# Builds the program that explains, and explains an example.
try_unproved() {
  tools/unproved.py "$room/explain" explain_main && "$room/explain" <examples/camera.script | cmp - examples/camera.explained
}

# Whether the actors of examples/shared.actors, whose number of events is open, have all come to their end.
is_shared() {
  sed -n '/^== shared$/,/^case=shared /p' "$1" >"$1.shared"
  [ "$(grep -c ' strong 0 weak 0$' "$1.shared")" = 4 ] && grep -qx 'gather ok' "$1.shared"
}

# Tries an item, and prints how many of its tests passed, and what failed.
try_item() {
  local item=$1 log="$room/$1.log" status=0 passed failed
  local -A tools=([edits]=edits_apply.py [transcripts]=transcripts.py [help_texts]=help_texts.py [sizes]="sizes.py --check"
                  [shown_files]=shown_files.py [page]="page_sources.py --check")
  if [ -n "${tools[$item]-}" ] || [ "$item" = unproved ]; then
    if [ "$item" = unproved ]; then try_unproved; else tools/${tools[$item]}; fi >"$log" 2>&1 || status=$?
    passed=$((status == 0)) failed=$((status != 0))
  elif [ -f "crates/$item/src/main.rt" ]; then
    try_program >"$log" 2>&1 || status=$?
    passed=$(grep -cE '^case=\S+ run=ended status=0 .*output=expected|^case=\S+_outcomes run=ended status=6 .*output=expected' "$log")
    if [ "$item" = sysmem_main ] && is_shared "$log"; then passed=$((passed + 1)); fi
    failed=$(($(find "$room/$item.cases" -name '*.args' | wc -l) - passed))
  else
    (cd "crates/$item" && rt try --test --seconds 600) >"$log" 2>&1 || status=$?
    passed=$(grep -c '^test .* \.\.\. ok$' "$log")
    failed=$(grep '^test .* \.\.\. ' "$log" | grep -vc ' ok$')
  fi
  if [ "$status" != 0 ] && [ "$failed" = 0 ]; then failed=1; fi
  if [ "$failed" != 0 ]; then grep -vE '^test .* \.\.\. ok$|^case=.* output=expected' "$log"; fi
  echo "$item: $passed passed, $failed failed"
}
export -f try_item try_program try_unproved add_case is_shared

printf '%s\n' "${items[@]}" | xargs -P "$lanes" -I{} bash -c 'try_item {} >"$room/{}.said"; cat "$room/{}.said"' || true
awk '$0 ~ /: [0-9]+ passed, [0-9]+ failed$/ { passed += $(NF - 3); failed += $(NF - 1); next }
  { failed++; print "test.sh: no count of an item: " $0 }
  END { print passed + 0 " passed, " failed + 0 " failed"; exit failed > 0 }' \
  < <(for item in "${items[@]}"; do tail -n 1 "$room/$item.said" 2>/dev/null | grep . || echo "$item: 0 passed, 1 failed"; done)
