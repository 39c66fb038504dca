#!/usr/bin/env bash
# Edits a second on a policy of 4,000 regions, and ticks a second in a world of 64 sectors, by the built server.
# Each figure is the time of a script with many such lines, less that of the same script without them.
# Needs awk, and /usr/bin/time for the memory.
set -eu
root=$(cd "$(dirname "$0")/.." && pwd)
work=$(mktemp -d)
trap 'rm -rf "$work"' EXIT
server=$root/crates/vx_server/out/vx_server
. "$root/bench/measure.sh"

# A world of 64 sectors with so many regions, side by side.
world() {
  awk -v regions="$1" 'BEGIN {
    print "world 8 8 1\nplayer ann"
    for (n = 0; n < regions; n++) {
      x = 2 * (n % 64); z = 2 * int(n / 64)
      print "region define plot" n " cuboid " x " 0 " z " " x + 1 " 63 " z + 1
    }
    print "tick"
  }'
}

# So many lines of one kind on that world, at regions all over it.
lines() {
  awk -v kind="$1" -v count="$2" -v regions="$3" 'BEGIN {
    for (i = 0; i < count; i++) {
      n = (i * 7919) % regions
      if (kind == "priority") print "region priority plot" n " " i % 100
      else if (kind == "flag") print "region flag plot" n " use " (i % 2 ? "allow" : "deny") " members"
      else if (kind == "owner") print "region owner plot" n " " (int(i / regions) % 2 ? "drop" : "add") " ann"
      else if (kind == "reshape") print "region reshape plot" n " cuboid 0 0 0 " i % 100 " 63 9"
      else if (kind == "parent") print "region parent plot" n " " (n % 8 ? "plot" n - n % 8 : "*")
      else if (kind == "refused") print "region define plot" n " cuboid 0 0 0 1 1 1"
      else if (kind == "remove and define") print (i % 2 ? "region define plot" : "region remove plot") int(i / 2) % regions (i % 2 ? " cuboid 0 0 0 1 63 1" : "")
      else if (kind == "edit and tick") print (i % 2 ? "tick" : "region priority plot" n " " i % 100)
      else print "tick"
    }
  }'
}

"$root/run" - </dev/null >/dev/null
printf '%-20s %8s %8s %10s %12s %10s\n' lines regions count us a_second KiB_more
for row in "priority 4000 200000" "flag 4000 200000" "owner 4000 200000" "reshape 4000 200000" "parent 4000 200000" \
  "refused 4000 200000" "remove_and_define 4000 20000" "edit_and_tick 4000 2000" "tick 4000 5000" "tick 1 5000"; do
  set -- $row
  world "$2" >"$work/plain.vx"
  { cat "$work/plain.vx"; lines "${1//_/ }" "$3" "$2"; } >"$work/full.vx"
  plain=$(microseconds "$server" "$work/plain.vx")
  full=$(microseconds "$server" "$work/full.vx")
  spent=$((full > plain ? full - plain : 1))
  printf '%-20s %8s %8s %10s %12s %10s\n' "${1//_/ }" "$2" "$3" "$spent" $(($3 * 1000000 / spent)) \
    $(($(kibibytes "$server" "$work/full.vx") - $(kibibytes "$server" "$work/plain.vx")))
done
