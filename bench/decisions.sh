#!/usr/bin/env bash
# Decisions a second by walking all regions, for an owner and for a stranger, over sets of regions of several sizes and layouts.
# The program stands beside this file (decisions.rt.in); it is proved and built in a copy of the repository.
set -eu
root=$(cd "$(dirname "$0")/.." && pwd)
work=$(mktemp -d)
trap 'rm -rf "$work"' EXIT
cp -a "$root/crates" "$root/crates.txt" "$root/HANDLES" "$work/"
mkdir -p "$work/crates/bench_decisions/src"
cp "$root/bench/decisions.rt.in" "$work/crates/bench_decisions/src/main.rt"
echo 'bench_decisions: vx_base vx_geom vx_flag vx_name vx_region vx_decide arrayvec indexmap thiserror anyhow' >>"$work/crates.txt"
cd "$work/crates/bench_decisions"
rt run </dev/null >"$work/first" 2>"$work/log" || { cat "$work/log" >&2; exit 1; }
./out/bench_decisions | column -t
