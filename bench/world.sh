#!/usr/bin/env bash
# What locks cost: bench/world.sh. Commands a second by one thread, by four and by 64, each in a sector of its own, and by four in one; ticks of an idle world, beside the same ticks without locks.
# The program stands beside this file (world.rt.in); it is proved and built in a copy of the repository.
set -eu
root=$(cd "$(dirname "$0")/.." && pwd)
work=$(mktemp -d)
trap 'rm -rf "$work"' EXIT
cp -a "$root/crates" "$root/crates.txt" "$root/HANDLES" "$work/"
bench=$work/crates/bench_world
mkdir -p "$bench/src" "$bench/proofs/spend"
cp "$root/bench/world.rt.in" "$bench/src/main.rt"
cp "$root/bench/world.picks.in" "$bench/proofs/spend/Invariants.antt"
echo "bench_world: $(sed -n 's/^vx_world: //p' "$root/crates.txt") vx_world vx_play anyhow" >>"$work/crates.txt"
cd "$bench"
rt run </dev/null >"$work/first" 2>"$work/log" || { cat "$work/log" >&2; exit 1; }
"./out/bench_world"
