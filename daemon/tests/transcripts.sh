#!/bin/sh
# What the daemon's cores did is a legal history: its transcript, played again by the values of the in-process binding
# and, if it is built, by the proved program, gets the same replies. The calls are those of random lives, kills included, also
# while each system call, and then each allocation, is refused in turn.
set -e
run=$(mktemp -d)
trap 'rm -rf "$run"' EXIT
cat >"$run/sysmemd" <<END
#!/bin/sh
exec $(realpath "$1/sysmemd") --transcripts $run --pages 4096 "\$@"
END
chmod +x "$run/sysmemd"
export SYSMEMD="$run/sysmemd" REFUSE="$(realpath "$1/refuse.so")"
"$1/tests" killed killed_anywhere tree_killed travels answers refused_in_turn >/dev/null
events=0
for t in "$run"/*.transcript; do
  [ "$(grep -c '^# [a-z]' "$t")" = 1 ] # all calls can be said; the first line has the pages
  pages=$(sed -n "1s/^# pages //p" "$t")
  grep '^[^ #]' "$t" >"$run/calls"
  sed -n 's/^  //p' "$t" >"$run/replies"
  if [ -n "$2" ]; then
    "$2" check --pages "$pages" "$t" >/dev/null
    "$2" run --pages "$pages" <"$run/calls" | diff -q "$run/replies" -
  else
    "$1/script" "$pages" <"$run/calls" | diff -q "$run/replies" -
  fi
  events=$((events + $(wc -l <"$run/calls")))
done
echo "transcripts ok: $events events of $(ls "$run"/*.transcript | wc -l) cores played again"
