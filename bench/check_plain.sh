#!/usr/bin/env bash
# Whether bench/plain.rs gives the replies that are due: every script of cases/ and examples/ that ends without a fault,
# takes no option, and has no block and no question (`explain`), which the plain program does not know.
#   bench/check_plain.sh [PROGRAM [RANDOM]]
# Without a PROGRAM, bench/plain.rs is compiled (rustc -O). It prints how many agree, and the name of each that does not.
# Then as many random scripts of machines in dense boxes, 20 unless said otherwise, whose replies have to be those of
# bench/plain/naive.py, and those of the same program by ticks that find all anew (--anew). Needs python3.
set -eu
root=$(cd "$(dirname "$0")/.." && pwd)
work=$(mktemp -d)
trap 'rm -rf "$work"' EXIT

plain=${1-$work/plain}
if [ $# = 0 ]; then
  rustc -O -C target-cpu=x86-64 -o "$plain" "$root/bench/plain.rs"
fi

agree=0
differ=0
for script in "$root"/cases/*.vx "$root"/examples/*.vx; do
  name=${script%.vx}
  if [ -e "$name.args" ] || grep -qE '^ *(together|explain)( |$)' "$script"; then continue; fi
  if [ -e "$name.status" ] && [ "$(cat "$name.status")" != 0 ]; then continue; fi
  if "$plain" <"$script" >"$work/replies" 2>&1 && cmp -s "$work/replies" "$name.stdout"; then
    agree=$((agree + 1))
  else
    differ=$((differ + 1))
    echo "differs: ${name#"$root"/}"
  fi
done
echo "$agree agree, $differ do not"

naive=$root/bench/plain/naive.py
random=${2-20}
differ_at_random=0
for seed in $(seq "$random"); do
  python3 "$naive" --script "$seed" >"$work/random.vx"
  python3 "$naive" <"$work/random.vx" >"$work/due"
  "$plain" <"$work/random.vx" >"$work/replies"
  "$plain" --anew <"$work/random.vx" >"$work/anew"
  if ! cmp -s "$work/due" "$work/replies" || ! cmp -s "$work/due" "$work/anew"; then
    differ_at_random=$((differ_at_random + 1))
    echo "differs: random script $seed"
  fi
done
echo "$((random - differ_at_random)) random scripts agree, $differ_at_random do not"
[ $((differ + differ_at_random)) = 0 ]
