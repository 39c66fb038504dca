#!/usr/bin/env bash
# What blocks of commands that players make at once cost, for the built server, beside the same lines without blocks.
#   bench/blocks.sh [--server PROGRAM] [PLAYERS ..]
# So many players (8 unless said otherwise), each in sectors of his own with nine lines of ten, in a world of 64 sectors; blocks of 8 to 65,536 lines.
# Needs awk.
set -eu
root=$(cd "$(dirname "$0")/.." && pwd)
work=$(mktemp -d)
trap 'rm -rf "$work"' EXIT
server=$root/crates/vx_server/out/vx_server
if [ "${1-}" = --server ]; then
  server=$2
  shift 2
else
  "$root/run" - </dev/null >/dev/null
fi
. "$root/bench/measure.sh"

# LINES commands of PLAYERS players, in blocks of BLOCK lines; 0: without blocks.
script() {
  awk -v lines="$1" -v players="$2" -v block="$3" 'BEGIN {
    srand(1)
    print "world 8 8 2"
    for (k = 0; k < players; k++) print "player p" k
    parts = split("stone dirt planks glass dust torch:down lamp", part, " ")
    for (n = 0; n < lines; n++) {
      if (block && n % block == 0) print "together"
      k = n % players
      sector = rand() < 0.9 ? k + players * int(rand() * int(64 / players)) : int(rand() * 64)
      x = 32 * (sector % 8) + int(rand() * 32)
      z = 32 * int(sector / 8) + int(rand() * 32)
      at = x " " int(rand() * 64) " " z
      kind = rand()
      if (kind < 0.5) line = "place " at " " part[1 + int(rand() * parts)]
      else if (kind < 0.75) line = "break " at
      else line = "look " at
      print "as p" k " " line
      if (block && (n % block == block - 1 || n == lines - 1)) print "end"
    }
  }'
}

# All are of seven turns: the least times and the middle ones, and the commands a second by both beside those without blocks.
turns=7
lines=393216
sizes=(none 8 64 512 4096 65536)
printf '%-8s %-8s %8s %8s %14s %8s %8s\n' players block ms middle commands/s times middle
for players in "${@:-8}"; do
  scripts=()
  for size in "${sizes[@]}"; do
    script $lines "$players" "${size/none/0}" >"$work/$size.vx"
    scripts+=("$work/$size.vx")
  done
  row=0
  while read -r least middle; do
    if [ $row = 0 ]; then first_least=$least first_middle=$middle; fi
    printf '%-8s %-8s %8s %8s %14s %8s %8s\n' "$players" "${sizes[$row]}" $((least / 1000)) $((middle / 1000)) $((lines * 1000000 / least)) \
      "$(quotient "$first_least" "$least")" "$(quotient "$first_middle" "$middle")"
    row=$((row + 1))
  done < <(in_turn $turns "$server" "${scripts[@]}")
done
