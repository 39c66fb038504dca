#!/usr/bin/env bash
# Commands among regions, and edits between ticks, by the built server, beside a plain program of the same rules.
#   bench/regions.sh [PROGRAM ..]
# Each PROGRAM reads the same scripts and is run in turn with the server; without one, bench/plain.rs is compiled (rustc -O).
# The replies are compared too. Needs awk; rustc, if no PROGRAM is named.
set -eu
root=$(cd "$(dirname "$0")/.." && pwd)
work=$(mktemp -d)
trap 'rm -rf "$work"' EXIT
server=$root/crates/vx_server/out/vx_server
. "$root/bench/measure.sh"

if [ $# = 0 ]; then
  rustc -O -C target-cpu=x86-64 -o "$work/plain" "$root/bench/plain.rs"
  set -- "$work/plain"
fi

# A world of 64 sectors, 256 by 64 by 256 cells, with so many regions:
#   spread   side by side, over the whole world
#   nested   by fives, each within the one before, which is its parent
#   tens     by tens over the same columns, of several priorities
# Owners, members, flags and priorities differ from region to region.
world() {
  awk -v layout="$1" -v regions="$2" 'BEGIN {
    print "world 8 8 2\nplayer ann\nplayer bob"
    deep = layout == "nested" ? 5 : layout == "tens" ? 10 : 1
    plots = int((regions + deep - 1) / deep)
    for (side = 1; side * side < plots; side++);
    for (n = 0; n < regions; n++) {
      plot = int(n / deep); level = n % deep
      x = int((plot % side) * 256 / side); east = int((plot % side + 1) * 256 / side) - 1
      z = int(int(plot / side) * 256 / side); south = int((int(plot / side) + 1) * 256 / side) - 1
      if (layout == "nested" && level * 2 < east - x) { x += int(level / 2); east -= int(level / 2) }
      print "region define r" n " cuboid " x " 0 " z " " east " 63 " south
      if (layout == "nested" && level) print "region parent r" n " r" n - 1
      if (layout == "tens") print "region priority r" n " " level % 3
      if (n % 3 == 0) print "region owner r" n " add ann"
      if (n % 3 == 1) print "region member r" n " add bob"
      if (n % 4 == 0) print "region flag r" n " block-break allow members"
      if (n % 5 == 0) print "region flag r" n " chest-access deny nonowners"
      if (n % 7 == 0) print "region flag r" n " passthrough allow all"
    }
    print "tick"
  }'
}

# So many commands at random positions.
commands() {
  awk -v count="$1" 'BEGIN {
    srand(2)
    parts = split("stone dirt planks glass obsidian dust torch:down lever:up repeater:north:3 lamp", part, " ")
    for (n = 0; n < count; n++) {
      who = rand() < 0.5 ? "ann" : "bob"
      at = int(rand() * 256) " " int(rand() * 64) " " int(rand() * 256)
      kind = rand()
      if (kind < 0.4) print "as " who " place " at " " part[1 + int(rand() * parts)]
      else if (kind < 0.7) print "as " who " break " at
      else if (kind < 0.8) print "as " who " look " at
      else if (kind < 0.9) print "as " who " open " at
      else print "as " who " turn " at
    }
  }'
}

# So many ticks, before each of which seven regions of many are edited.
edits() {
  awk -v ticks="$1" -v regions="$2" 'BEGIN {
    for (t = 0; t < ticks; t++) {
      for (k = 0; k < 7; k++) {
        n = (t * 7919 + k * 104729) % regions
        if (k == 0) print "region priority r" n " " t % 100
        else if (k == 1) print "region flag r" n " use " (t % 2 ? "allow" : "deny") " members"
        else if (k == 2) print "region owner r" n " " (t % 2 ? "drop" : "add") " bob"
        else if (k == 3) print "region member r" n " " (t % 2 ? "drop" : "add") " ann"
        else if (k == 4) print (t % 3 ? "region flag r" n " pistons deny" : "region clear r" n " pistons")
        else if (k == 5) print "region priority r" n " -" 1 + t % 50
        else print (t % 2 ? "region flag __global__ build allow" : "region clear __global__ build")
      }
      print "tick"
    }
  }'
}

printf '%-22s %8s %10s %s\n' script lines server_us "program_us ratio .."
row() {
  local name=$1 script=$2 turn line program
  shift 2
  line=
  for program in "$@"; do
    "$program" <"$script" >"$work/theirs"
    "$server" <"$script" >"$work/ours"
    cmp -s "$work/ours" "$work/theirs" || line="$line replies_differ"
    for turn in $(seq 15); do
      echo "$(microseconds "$server" "$script") $(microseconds "$program" "$script")"
    done >"$work/times"
    line="$line $(awk '{ if (NR == 1 || $1 < a) a = $1; if (NR == 1 || $2 < b) b = $2 } END { printf "%d %d %.2f", a, b, a / b }' "$work/times")"
  done
  printf '%-22s %8s %s\n' "$name" "$(wc -l <"$script")" "$line"
}

{ world spread 0; commands 400000; } >"$work/none.vx"
row none "$work/none.vx" "$@"
for layout in spread nested tens; do
  for regions in 50 500 4000; do
    { world "$layout" "$regions"; commands 100000; } >"$work/script.vx"
    row "${layout}_$regions" "$work/script.vx" "$@"
  done
done
{ world spread 4000; edits 15000 4000; } >"$work/edits.vx"
row edits_and_ticks "$work/edits.vx" "$@"
