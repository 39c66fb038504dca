#!/usr/bin/env bash
# What worlds of several sizes cost, up to the largest, for the built server.
#   bench/largest.sh [--server PROGRAM]
# Three tables: worlds without anything in them, how long they take to open, their memory and an idle tick; 590,000 commands at random places of a world of 64
# sectors and of the largest one; commands of 4 to 64 players in blocks of 65,536 lines, each player in a sector of his own of the largest world, and the memory
# that the players of a world take. Needs awk, and /usr/bin/time.
set -eu
root=$(cd "$(dirname "$0")/.." && pwd)
work=$(mktemp -d)
trap 'rm -rf "$work"' EXIT
server=$root/crates/vx_server/out/vx_server
if [ "${1-}" = --server ]; then
  server=$2
else
  "$root/run" - </dev/null >/dev/null
fi
. "$root/bench/measure.sh"
# As ./run sets it.
GLIBC_TUNABLES=$(sed -n 's/^export GLIBC_TUNABLES=${GLIBC_TUNABLES-\(.*\)}$/\1/p' "$root/run")
export GLIBC_TUNABLES

# The header of a world of so many sectors each way, so high, with so many players.
header() {
  echo "world $1 $1 2 $2"
  for ((k = 0; k < $3; k++)); do echo "player p$k"; done
}

# 590,000 commands of two players: half of them place, a quarter break, a quarter look.
commands() {
  echo "world $1 $1 2 $2"
  awk -v side=$((32 * $1)) -v high="$2" 'BEGIN {
    srand(1)
    print "player a\nplayer b"
    parts = split("stone dirt glass dust lamp", part, " ")
    for (n = 0; n < 590000; n++) {
      at = int(rand() * side) " " int(rand() * high) " " int(rand() * side)
      kind = rand()
      who = rand() < 0.5 ? "a" : "b"
      if (kind < 0.5) print "as " who " place " at " " part[1 + int(rand() * parts)]
      else if (kind < 0.75) print "as " who " break " at
      else print "as " who " look " at
    }
  }'
}

# 393,216 commands of so many players in blocks of 65,536 lines, each in a sector of his own of the largest world.
blocks() {
  header 16 128 "$1"
  awk -v players="$1" 'BEGIN {
    srand(1)
    parts = split("stone dirt glass dust lamp", part, " ")
    for (n = 0; n < 393216; n++) {
      if (n % 65536 == 0) print "together"
      k = n % players
      at = 32 * (4 * k % 16) + int(rand() * 32) " " int(rand() * 128) " " 32 * int(k / 4) + int(rand() * 32)
      kind = rand()
      if (kind < 0.5) print "as p" k " place " at " " part[1 + int(rand() * parts)]
      else if (kind < 0.75) print "as p" k " break " at
      else print "as p" k " look " at
      if (n % 65536 == 65535) print "end"
    }
  }'
}

ticks=2000
printf '%-16s %8s %10s %10s %16s\n' world sectors ms KiB 'idle tick, us'
for size in '1 64' '2 64' '4 64' '8 64' '16 64' '1 128' '2 128' '4 128' '8 128' '16 128'; do
  read -r sectors high <<<"$size"
  header "$sectors" "$high" 1 >"$work/empty.vx"
  { cat "$work/empty.vx"; yes tick | head -n $ticks; } >"$work/idle.vx"
  opening=$(microseconds "$server" "$work/empty.vx")
  printf '%-16s %8s %10s %10s %16s\n' "$((32 * sectors)) by $high" $((sectors * sectors)) "$(awk -v t="$opening" 'BEGIN { printf "%.1f", t / 1000 }')" \
    "$(kibibytes "$server" "$work/empty.vx")" "$(awk -v a="$opening" -v b="$(microseconds "$server" "$work/idle.vx")" -v n=$ticks 'BEGIN { printf "%.1f", (b - a) / n }')"
done

# The last two tables are of eleven turns: the least times and the middle ones, and what both are beside those of the first row.
turns=11
printf '\n%-24s %8s %8s %14s %10s %8s %8s\n' '590,000 commands' ms middle commands/s KiB times middle
commands 8 64 >"$work/few.vx"
commands 16 128 >"$work/many.vx"
names=('64 sectors' 'the largest world')
scripts=("$work/few.vx" "$work/many.vx")
row=0
while read -r least middle; do
  if [ $row = 0 ]; then first_least=$least first_middle=$middle; fi
  printf '%-24s %8s %8s %14s %10s %8s %8s\n' "${names[$row]}" $((least / 1000)) $((middle / 1000)) $((590000 * 1000000 / least)) "$(kibibytes "$server" "${scripts[$row]}")" \
    "$(quotient "$least" "$first_least")" "$(quotient "$middle" "$first_middle")"
  row=$((row + 1))
done < <(in_turn $turns "$server" "${scripts[@]}")

printf '\n%-8s %8s %8s %14s %8s %8s %18s\n' players ms middle commands/s times middle 'KiB without calls'
numbers=(4 8 16 32 64)
scripts=()
for players in "${numbers[@]}"; do
  blocks "$players" >"$work/blocks$players.vx"
  scripts+=("$work/blocks$players.vx")
done
row=0
while read -r least middle; do
  players=${numbers[$row]}
  if [ $row = 0 ]; then first_least=$least first_middle=$middle; fi
  header 16 128 "$players" >"$work/empty.vx"
  printf '%-8s %8s %8s %14s %8s %8s %18s\n' "$players" $((least / 1000)) $((middle / 1000)) $((393216 * 1000000 / least)) \
    "$(quotient "$first_least" "$least")" "$(quotient "$first_middle" "$middle")" "$(kibibytes "$server" "$work/empty.vx")"
  row=$((row + 1))
done < <(in_turn $turns "$server" "${scripts[@]}")
