#!/usr/bin/env bash
# What machines cost: bench/machines.sh signals | pistons | ticks | woken.
#   signals  the next parts over all 64 sectors of a world: lines of dust of which every tenth toggles, and stones alone
#   pistons  candidates, claims and fates of pistons that each push twelve cells, without regions and with 4,000
#   ticks    whole ticks, copied, handed over, and on 1 and 4 threads: an idle world of 200,000 blocks, lines of dust that toggle, pistons that push and draw
#   woken    ticks at play, which look where something changed, beside ticks that look everywhere: idle, one lamp, lines under clocks, pistons under such lines
# The program stands beside this file (NAME.rt.in, map.rt.in); it is proved and built in a copy of the repository.
set -eu
root=$(cd "$(dirname "$0")/.." && pwd)
name=$1
work=$(mktemp -d)
trap 'rm -rf "$work"' EXIT
cp -a "$root/crates" "$root/crates.txt" "$root/HANDLES" "$work/"
bench=$work/crates/bench_$name
mkdir -p "$bench/src" "$bench/proofs"
cp "$root/bench/$name.rt.in" "$bench/src/main.rt"
for module in $(sed -n 's/^mod \(.*\);$/\1/p' "$bench/src/main.rt"); do
  cp "$root/bench/$module.rt.in" "$bench/src/$module.rt"
done
echo "bench_$name: $(sed -n 's/^vx_play: //p' "$root/crates.txt") vx_play vx_step anyhow" >>"$work/crates.txt"
cd "$bench"
rt run </dev/null >"$work/first" 2>"$work/log" || { cat "$work/log" >&2; exit 1; }
"./out/bench_$name" | column -t
