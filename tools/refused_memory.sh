#!/usr/bin/env bash
# Runs tests with the first allocation refused, then with the second, and so on until a run makes fewer
# allocations. Each test checks what a refusal leaves: it fails where that is not as it was.
#   tools/refused_memory.sh [-j LANES] [--built] [CRATE.. | explain]
# With no CRATE it takes those that have such tests, and `explain`: the program explains three scripts, and each
# refusal ends it with status 4, and leaves whole lines with all that is told of them; or it asks for the memory
# again, and tells all. Of test_core all tests count, of the others those with `memory` in their names: the rest
# take success for granted. The tests are proved and built first, where that was not done; with --built those
# are run that `rt ci` left. A run takes milliseconds. Of a test that makes thousands of allocations the first
# 300 are refused, but all of the one that plays each script of test_core. LANES tests (one for each processor,
# if not said) run side by side. The last line counts the tests. Needs cc.
set -euo pipefail
cd "$(dirname "$0")/.."
lanes=$(nproc) built='' crates=()
while [ $# -gt 0 ]; do
  case $1 in
    -j) lanes=${2-} && shift ;;
    --built) built=1 ;;
    *) crates+=("$1") ;;
  esac
  shift
done
[ ${#crates[@]} = 0 ] && crates=(test_core test_ends explain test_scripts test_parts)
room=$(mktemp -d)
trap 'rm -r "$room"' EXIT
export room
cc -O1 -Wall -Wextra -Werror -shared -fPIC -o "$room/refuse.so" tools/refuse.c

# Follows one test to its first run in which no allocation is refused.
follow() {
  local program=$1 test=$2 most=300 own number=0
  own=$(mktemp -d "$room/test.XXXXXX")
  [ "$test" != tests::plays::scripts_are_answered_as_they_say ] || most=100000
  while :; do
    number=$((number + 1))
    if ! timeout 600 env LD_PRELOAD="$room/refuse.so" REFUSE=$number "$program" "$test" >"$own/said" 2>&1 </dev/null; then
      cat "$own/said"
      echo "$test FAILS where allocation $number is refused"
      return 1
    fi
    if ! grep -q '^memory was refused' "$own/said"; then
      echo "$test: passes with each of $((number - 1)) allocations refused"
      return 0
    fi
    if [ "$number" = "$most" ]; then
      echo "$test: passes with each of its first $most allocations refused"
      return 0
    fi
  done
}

# Whether the program, whose status this is, left whole lines of this explanation with all that is told of them, and
# said so; or all lines, and said nothing.
left_whole_lines() {
  local status=$1 told=$2 own=$3 size
  if [ "$status" = 0 ]; then
    cmp -s "$own/out" "$told" && [ "$(cat "$own/said")" = 'memory was refused' ]
    return
  fi
  size=$(stat -c %s "$own/out")
  cmp -s -n "$size" "$own/out" "$told" || return 1
  [ "$(tail -c +$((size + 1)) "$told" | head -c 1)" != ' ' ] || return 1
  [ "$status" = 4 ] && [ "$(tail -n 1 "$own/said")" = 'no memory' ]
}

# Explains a script until nothing is refused.
explain() {
  local program=$1 script=$2 own number=0 status
  own=$(mktemp -d "$room/script.XXXXXX")
  while :; do
    number=$((number + 1))
    status=0
    timeout 600 env LD_PRELOAD="$room/refuse.so" REFUSE=$number "$program" explain \
      <"$script" >"$own/out" 2>"$own/said" || status=$?
    if ! grep -q '^memory was refused' "$own/said"; then
      cmp "$own/out" "${script%.script}.explained" || return 1
      echo "$script is explained, or left at a whole line with each of $((number - 1)) allocations refused"
      return 0
    fi
    if ! left_whole_lines "$status" "${script%.script}.explained" "$own"; then
      cat "$own/out" "$own/said"
      echo "$script is NOT left at a whole line where allocation $number is refused"
      return 1
    fi
  done
}
export -f follow left_whole_lines explain

# Sees that the program is there: builds it by the other words in its crate's folder, unless it is to be there.
have() {
  local program=$1 crate=$2
  shift 2
  if [ -z "$built" ]; then
    (cd "crates/$crate" && "$@" </dev/null >"$room/log" 2>&1) || { cat "$room/log"; exit 1; }
  fi
  [ -x "$program" ] || { echo "refused_memory.sh: there is no $program: \`rt ci\` leaves it" >&2 && exit 1; }
}

# One line for each test: the function that tries it, the program, and the test or the script.
for crate in "${crates[@]}"; do
  if [ "$crate" = explain ]; then
    program=crates/sysmem_main/out/sysmem_main
    have "$program" sysmem_main rt run -- run
    for script in camera weak recorder; do echo "explain $program examples/$script.script"; done >>"$room/tests"
    continue
  fi
  program=crates/$crate/out/${crate}_tests
  have "$program" "$crate" rt test
  counts='/memory/!d'
  [ "$crate" = test_core ] && counts=
  "$program" --list | sed -n 's/: test$//p' | sed "$counts" | sed "s#^#follow $program #" >>"$room/tests"
done
xargs -P "$lanes" -L 1 bash -c '"$@" && echo >>"$room/passed"' - <"$room/tests" || true
touch "$room/passed"
all=$(wc -l <"$room/tests") passed=$(wc -l <"$room/passed")
echo "$passed passed, $((all - passed)) failed"
[ "$passed" = "$all" ]
