#!/usr/bin/env bash
# What edits of a desk that threads share cost, with their publishing, and what questions cost that take no lock: bench/board.sh.
# The program stands beside this file (board.rt.in); it is proved and built in a copy of the repository.
set -eu
root=$(cd "$(dirname "$0")/.." && pwd)
work=$(mktemp -d)
trap 'rm -rf "$work"' EXIT
cp -a "$root/crates" "$root/crates.txt" "$root/HANDLES" "$work/"
bench=$work/crates/bench_board
mkdir -p "$bench/src" "$bench/proofs/spend"
cp "$root/bench/board.rt.in" "$bench/src/main.rt"
cp "$root/bench/board.picks.in" "$bench/proofs/spend/Invariants.antt"
echo "bench_board: $(sed -n 's/^vx_board: //p' "$root/crates.txt") vx_board anyhow" >>"$work/crates.txt"
cd "$bench"
rt run </dev/null >"$work/first" 2>"$work/log" || { cat "$work/log" >&2; exit 1; }
./out/bench_board | column -t
