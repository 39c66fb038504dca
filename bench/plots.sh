#!/usr/bin/env bash
# What a tick of a script costs where 1,000 sticky pistons stand in 100 plots and all of them push or draw in it, by the built server: the time of a
# script that turns every lever before each of 40 ticks, less that of the same script without these ticks. Each tick tells 1,000 fates, which is in it.
set -eu
root=$(cd "$(dirname "$0")/.." && pwd)
work=$(mktemp -d)
trap 'rm -rf "$work"' EXIT
server=${1-$root/crates/vx_server/out/vx_server}
. "$root/bench/measure.sh"

# So many plots of ten pistons each, ann's regions or nobody's, and forty rounds in which she turns each lever, each with a tick or none.
script() {
  awk -v plots="$1" -v regions="$2" -v ticks="$3" 'BEGIN {
    print "world 8 8 1\nplayer ann"
    for (n = 0; n < plots; n++) for (k = 0; k < 10; k++) {
      x = 12 * (n % 10); z = 12 * int(n / 10) + k
      print "set " x " 1 " z " lever:down\nset " x + 1 " 1 " z " sticky:east\nset " x + 2 " 1 " z " stone"
    }
    for (n = 0; n < plots && regions; n++) {
      x = 12 * (n % 10); z = 12 * int(n / 10)
      print "region define plot" n " cuboid " x " 0 " z " " x + 11 " 63 " z + 11 "\nregion owner plot" n " add ann"
    }
    print "tick"
    for (t = 0; t < 40; t++) {
      for (n = 0; n < plots; n++) for (k = 0; k < 10; k++)
        print "as ann turn " 12 * (n % 10) " 1 " 12 * int(n / 10) + k
      if (ticks) print "tick"
    }
  }'
}

printf '%-8s %-8s %12s %10s\n' pistons regions us_a_tick fates
for row in "25 0" "50 0" "100 0" "25 1" "50 1" "100 1"; do
  set -- $row
  script "$1" "$2" 0 >"$work/plain.vx"
  script "$1" "$2" 1 >"$work/full.vx"
  fates=$("$server" <"$work/full.vx" | grep -c ' moved$\|^moved' || true)
  plain=$(microseconds "$server" "$work/plain.vx")
  full=$(microseconds "$server" "$work/full.vx")
  printf '%-8s %-8s %12s %10s\n' $((10 * $1)) $(($1 * $2)) $(((full - plain) / 40)) $((fates / 40))
done
