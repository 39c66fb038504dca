#!/usr/bin/env bash
# Commands a second and bytes of memory an entry of the record, for the built server.
#   bench/commands.sh [PROGRAM ..]
# Each PROGRAM reads the same script and writes replies, and is run in turn with the server, to compare with.
# Needs awk, and /usr/bin/time for the memory.
set -eu
root=$(cd "$(dirname "$0")/.." && pwd)
work=$(mktemp -d)
trap 'rm -rf "$work"' EXIT
server=$root/crates/vx_server/out/vx_server
. "$root/bench/measure.sh"

# A script of at most so many bytes: every command at random positions of a world of 64 sectors, 256 by 64 by 256 cells, by two
# players, with every part. To meet chests and levers, those commands that want one are made where one was placed.
script() {
  awk -v limit="$1" 'BEGIN {
    srand(1)
    parts = split("stone dirt planks glass obsidian bedrock dust torch:down torch:west lever:up repeater:north:3 lamp piston:east sticky:up", part, " ")
    split("ann bob", name, " ")
    head = "world 8 8 2\nplayer ann\nplayer bob\n"
    size = length(head)
    printf "%s", head
    chests = levers = 0
    for (;;) {
      who = name[1 + int(rand() * 2)]
      at = int(rand() * 256) " " int(rand() * 64) " " int(rand() * 256)
      slot = int(rand() * 27)
      kind = rand()
      if (kind < 0.01 || chests == 0) {
        line = "as " who " place " at " chest"
        if (chests < 1000) chest[chests++] = at
      } else if (kind < 0.02 || levers == 0) {
        line = "as " who " place " at " lever:down"
        if (levers < 1000) lever[levers++] = at
      }
      else if (kind < 0.35) line = "as " who " place " at " " part[1 + int(rand() * parts)]
      else if (kind < 0.6) line = "as " who " break " at
      else if (kind < 0.8) line = "as " who " look " at
      else if (kind < 0.85) line = "as " who " turn " lever[int(rand() * levers)]
      else if (kind < 0.9) line = "as " who " open " chest[int(rand() * chests)]
      else if (kind < 0.95) line = "as " who " put " chest[int(rand() * chests)] " " slot " 7 " 1 + int(rand() * 16)
      else line = "as " who " take " chest[int(rand() * chests)] " " slot " " 1 + int(rand() * 16)
      size += length(line) + 1
      if (size > limit) break
      print line
    }
  }'
}

# The least of three wall-clock times, in milliseconds.
milliseconds() {
  echo $(($(microseconds "$1" "$2") / 1000))
}

"$root/run" - </dev/null >/dev/null
printf 'world 1 1 1\nplayer ann\n' >"$work/small.vx"
printf 'world 8 8 2\nplayer ann\n' >"$work/empty.vx"
idle=$(kibibytes "$server" "$work/empty.vx")
# A sector has its cells twice: as its window began, and as they are.
awk -v large="$idle" -v small="$(kibibytes "$server" "$work/small.vx")" \
  'BEGIN { printf "bytes a cell, in each of two copies: %.3f\n", (large - small) * 1024 / 2 / (256 * 64 * 256 - 16 * 64 * 16) }'
printf '%-12s %10s %10s %14s %14s\n' bytes commands ms commands/s bytes/entry
for size in 4194304 8388608 16777216; do
  script "$size" >"$work/game.vx"
  commands=$(grep -c '^as ' "$work/game.vx")
  ms=$(milliseconds "$server" "$work/game.vx")
  memory=$(kibibytes "$server" "$work/game.vx")
  printf '%-12s %10s %10s %14s %14s\n' "$size" "$commands" "$ms" $((commands * 1000 / (ms + 1))) $(((memory - idle) * 1024 / commands))
done
# The machine may have other work, so the ratio of the least times counts.
for program in "$@"; do
  for turn in 1 2 3 4 5; do
    echo "$(milliseconds "$server" "$work/game.vx") $(milliseconds "$program" "$work/game.vx")"
  done | awk -v name="$(basename "$program")" '{
    if (NR == 1 || $1 < ours) ours = $1
    if (NR == 1 || $2 < theirs) theirs = $2
    printf "turn %d: server %d ms, %s %d ms, ratio %.2f\n", NR, $1, name, $2, $1 / ($2 + 0.001)
  } END { printf "least: server %d ms, %s %d ms, ratio %.2f\n", ours, name, theirs, ours / (theirs + 0.001) }'
done
