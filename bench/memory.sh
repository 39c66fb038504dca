#!/usr/bin/env bash
# What a world takes in memory, and how long it takes to open, for the built server and for each
# PROGRAM, in turn in one run.
#   bench/memory.sh [PROGRAM ..]
# Worlds of 64 sectors (256 by 64 by 256 cells): with nothing in them; with 200,000 blocks of five
# kinds at random places; with 48,000 dust on one layer, without power and then with it (each lever
# feeds fourteen); with a floor of stone two cells high; with 20,000 chests; and with one lever in
# each sector. Needs awk, and /usr/bin/time.
set -eu
root=$(cd "$(dirname "$0")/.." && pwd)
work=$(mktemp -d)
trap 'rm -rf "$work"' EXIT
server=$root/crates/vx_server/out/vx_server
. "$root/bench/measure.sh"
"$root/run" - </dev/null >/dev/null

world() {
  awk -v kind="$1" 'BEGIN {
    srand(1)
    print "world 8 8 2"
    print "player ann"
    if (kind == "blocks") {
      split("stone dirt planks glass obsidian", part, " ")
      for (n = 0; n < 200000; n++) print "set", int(rand() * 256), int(rand() * 64), int(rand() * 256), part[1 + int(rand() * 5)]
    }
    if (kind == "dust" || kind == "powered")
      for (z = 0; z < 200; z += 1) for (x = 0; x < 255; x += 15) {
        if (kind == "powered") print "set", x, 1, z, "lever:down"
        for (k = 1; k < 15; k++) print "set", x + k, 1, z, (z % 2 ? "stone" : "dust")
        if (z % 2) for (k = 1; k < 15; k++) print "set", x + k, 3, z, "dust"
      }
    if (kind == "powered") { for (z = 0; z < 200; z += 2) for (x = 0; x < 255; x += 15) print "as ann turn", x, 1, z; print "tick"; print "tick" }
    if (kind == "floor") for (y = 0; y < 2; y++) for (z = 0; z < 256; z++) for (x = 0; x < 256; x++) print "set", x, y, z, "stone"
    if (kind == "levers") for (z = 5; z < 256; z += 32) for (x = 5; x < 256; x += 32) print "set", x, 3, z, "lever:down"
    if (kind == "chests") for (n = 0; n < 20000; n++) print "set", int(rand() * 256), int(rand() * 64), int(rand() * 256), "chest"
    print "tick"
  }'
}

printf '%-10s' world
for program in "$server" "$@"; do printf ' %12s %8s' "$(basename "$(dirname "$program")")" ms; done
printf '\n'
for kind in empty blocks dust powered floor chests levers; do
  world $kind >"$work/$kind.vx"
  printf '%-10s' $kind
  for program in "$server" "$@"; do
    took=$(microseconds "$program" "$work/$kind.vx")
    printf ' %8s KiB %8s' "$(kibibytes "$program" "$work/$kind.vx")" "$(awk -v t="$took" 'BEGIN { printf "%.1f", t / 1000 }')"
  done
  printf '\n'
done
