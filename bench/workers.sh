#!/usr/bin/env bash
# What ticks of a script cost by several workers: milliseconds a tick, with its commands, for the built server.
#   bench/workers.sh [WORKERS ..]
# 5,120 levers, each before 14 dust, in 64 sectors of 32 by 32 columns; before each of twenty ticks so many of the levers are turned. Needs awk.
set -eu
root=$(cd "$(dirname "$0")/.." && pwd)
work=$(mktemp -d)
trap 'rm -rf "$work"' EXIT
server=$root/crates/vx_server/out/vx_server

# A script in which TURNED of the levers are turned before each of TICKS ticks.
script() {
  awk -v turned="$1" -v ticks="$2" 'BEGIN {
    print "world 8 8 2"
    print "player ann"
    for (sector = 0; sector < 64; sector++)
      for (k = 0; k < 80; k++) {
        x = 32 * (sector % 8) + 16 * (k % 2)
        z = 32 * int(sector / 8) + 2 * (int(k / 2) % 16)
        y = 1 + 2 * int(k / 32)
        lever[n++] = x " " y " " z
        print "set " x " " y " " z " lever:down"
        for (i = 1; i < 15; i++) print "set " x + i " " y " " z " dust"
      }
    for (t = 0; t < ticks; t++) {
      for (i = 0; i < turned; i++) print "as ann turn " lever[int(i * n / turned)]
      print "tick"
    }
  }'
}

# The least of five wall-clock times, in microseconds.
least() {
  local least=999999999 start end
  for _ in 1 2 3 4 5; do
    start=$(date +%s%N)
    "$server" --workers "$1" <"$2" >/dev/null
    end=$(date +%s%N)
    [ $(((end - start) / 1000)) -ge "$least" ] || least=$(((end - start) / 1000))
  done
  echo "$least"
}

"$root/run" - </dev/null >/dev/null
script 0 0 >"$work/still.vx"
for turned in 5 51 512 5120; do
  script $turned 20 >"$work/ticks.vx"
  printf '%5s levers:' $turned
  for workers in "${@:-1 2 4 8}"; do
    for count in $workers; do
      still=$(least "$count" "$work/still.vx")
      took=$(least "$count" "$work/ticks.vx")
      awk -v w="$count" -v a="$still" -v b="$took" 'BEGIN { printf "  %s workers %.2f ms", w, (b - a) / 20000 }'
    done
  done
  echo
done
