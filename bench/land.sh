#!/usr/bin/env bash
# What the built server takes for several workloads, beside a plain program of the same rules
# (bench/plain.rs).
#   bench/land.sh [WORKLOAD ..] [--server PROGRAM] [--plain PROGRAM] [--old PROGRAM] [--plots DIRECTORY]
# A WORKLOAD is one of these; without one all are run:
#   crowded   100,000 commands of three players among 4,000 regions of 4 to 40 columns a side, about
#             30 at a place
#   plots     2,300 pistons under dust with clocks, over 100 such regions in 36 sectors, 200 ticks
#   works     as plots, among 1,000 regions of which each has one of fifty domains
#   edits     150,000 lines: edits of every kind, a command in ten, a tick in a hundred, among 4,000
#             regions
#   idle      20,000 ticks of 64 sectors with 100,000 blocks
#   building  20,000 commands of one player among 100,000 blocks, each before a tick of 64 sectors
#   placed    64,000 parts placed or broken, one in each of 64 sectors before each of 1,000 ticks
#   dust      200 ticks of 48,000 dust in rings, each beside a clock
#   clocks    1,000 ticks of 3,200 dust, repeaters and lamps in 16 sectors, under 25 clocks
#   commands  400,000 commands without regions, among 50, and a fifth of them for chests; 100,000
#             among 500
#   sweeps    twelve, each with a row a point: regions at a place, regions over pistons, edits between
#             ticks, members of a region whose priority and flags are edited, members of one that
#             gains and loses a name, sectors, sectors with an edit before each tick, dust that is
#             awake, and ten times as much of it, rings of dust whose source goes out, pistons,
#             chests in a sector; or one of them: place, pistons, edits_a_tick, members, names,
#             sectors, edited, awake, awake_of_many, loops, machines, storage
# Options:
#   --server  the program to measure; without it the built server of this repository
#   --plain   the program beside it; without it bench/plain.rs is compiled (rustc -O)
#   --old     one program more, as the server before a change; it stands between the two, with its
#             own ratio
#   --plots   writes a plot of each sweep there, NAME.svg (bench/plot.py)
# The programs read the same script in turn, three times each, and up to forty times where that is
# short, and the least time of each counts. What the world and its policy take is taken off: the
# time of the same script cut before the part that is measured. The replies of the server and of the
# plain program are compared; where they differ the row says so, and the status is 1.
# Needs python3; rustc, if no --plain is named. The scripts are made by bench/land_scripts.py, the
# same at each run.
set -eu
root=$(cd "$(dirname "$0")/.." && pwd)
work=$(mktemp -d)
trap 'rm -rf "$work"' EXIT

server=$root/crates/vx_server/out/vx_server
plain=
old=
plots=
workloads=
sweeps=
all_sweeps="place pistons edits_a_tick members names sectors edited awake awake_of_many loops machines storage"
while [ $# -gt 0 ]; do
  case $1 in
    --server) server=$2; shift ;;
    --plain) plain=$2; shift ;;
    --old) old=$2; shift ;;
    --plots) plots=$2; shift ;;
    crowded | plots | works | edits | idle | building | placed | dust | clocks | commands) workloads="$workloads $1" ;;
    sweeps) sweeps=$all_sweeps ;;
    place | pistons | edits_a_tick | members | names | sectors | edited | awake | awake_of_many | loops | machines | storage)
      sweeps="$sweeps $1"
      ;;
    *) echo "no such workload or option: $1" >&2; exit 2 ;;
  esac
  shift
done
if [ -z "$workloads$sweeps" ]; then
  workloads="crowded plots works edits idle building placed dust clocks commands"
  sweeps=$all_sweeps
fi

if [ -z "$plain" ]; then
  plain=$work/plain
  rustc -O -C target-cpu=x86-64 -o "$plain" "$root/bench/plain.rs"
fi
for program in "$server" "$plain" ${old:+"$old"}; do
  [ -x "$program" ] || { echo "no program: $program" >&2; exit 2; }
done

# The wall-clock time of one run, in microseconds.
run_time() {
  local start end
  start=$(date +%s%N)
  "$1" <"$2" >/dev/null
  end=$(date +%s%N)
  echo $(((end - start) / 1000))
}

# The least times of the programs, run in turn, for the whole script and for its head: a line `WHOLE HEAD` a program.
measure() {
  local turn program number start
  start=$(date +%s%N)
  for turn in $(seq 40); do
    if [ "$turn" -gt 3 ] && [ $(($(date +%s%N) - start)) -gt 1500000000 ]; then break; fi
    number=0
    for program in "$@"; do
      number=$((number + 1))
      echo "$number $(run_time "$program" "$work/whole.vx") $(run_time "$program" "$work/head.vx")"
    done
  done | awk '{
    if (!($1 in whole)) { count++; whole[$1] = $2; head[$1] = $3 }
    if ($2 < whole[$1]) whole[$1] = $2
    if ($3 < head[$1]) head[$1] = $3
  } END { for (n = 1; n <= count; n++) print whole[n], head[n] }'
}

# Makes a script by its name, and the point of a sweep, measures it, and prints the row.
row() {
  local label=$1 remark=
  shift
  python3 "$root/bench/land_scripts.py" "$@" "$work"
  "$server" <"$work/whole.vx" >"$work/ours" || true
  "$plain" <"$work/whole.vx" >"$work/theirs" || true
  cmp -s "$work/ours" "$work/theirs" || remark="replies differ"
  measure "$server" ${old:+"$old"} "$plain" | awk -v label="$label" -v remark="$remark" '{
    spent[NR] = ($1 - $2) / 1000
    if (spent[NR] < 0.1) spent[NR] = 0.1
  } END {
    printf "%-14s %10.1f", label, spent[1]
    if (NR == 3) printf " %10.1f %10.1f %8.2f %8.2f", spent[2], spent[3], spent[1] / spent[3], spent[2] / spent[3]
    else printf " %10.1f %8.2f", spent[2], spent[1] / spent[2]
    print (remark ? "  " remark : "")
  }'
}

# The line over the rows.
title() {
  if [ -n "$old" ]; then
    printf '%-14s %10s %10s %10s %8s %8s\n' "$1" server_ms old_ms plain_ms ratio old
  else
    printf '%-14s %10s %10s %8s\n' "$1" server_ms plain_ms ratio
  fi
}

# The rows of a sweep, headed by its name and by what its points are.
sweep() {
  local name=$1 script=$2 axis=$3 point
  shift 3
  printf '\nsweep %s: %s\n' "$name" "$axis"
  title point
  for point in "$@"; do
    row "$point" "$script" "$point"
  done
}

sweep_named() {
  case $1 in
    place) sweep place sweep_place "regions at a place, 20,000 commands" 1 2 4 8 16 32 64 128 ;;
    pistons) sweep pistons sweep_pistons "regions over 1,000 pistons, 50 ticks" 0 500 1000 1500 2000 2500 3000 3500 4000 ;;
    edits_a_tick) sweep edits sweep_edits "edits before each of 2,000 ticks, 4,000 regions" 0 1 5 20 100 ;;
    members) sweep members sweep_members "members of a region, 20,000 other edits of it" 1 10 100 1000 5000 ;;
    names) sweep names sweep_names "members of a region, 2,000 edits that add or drop one" 1 10 100 1000 5000 ;;
    sectors) sweep sectors sweep_sectors "sectors, 40,000 idle ticks" 1 4 16 36 64 ;;
    edited) sweep edited sweep_edited "sectors, 10,000 ticks, each behind an edit" 1 4 16 64 256 ;;
    awake) sweep awake sweep_awake "% of 4,800 dust awake, 1,000 ticks or more" 0.1 0.3 1 3 10 30 100 ;;
    awake_of_many) sweep awake_of_many sweep_awake_of_many "% of 48,000 dust awake, 200 ticks or more" 0.1 0.3 1 3 10 30 100 ;;
    loops) sweep loops sweep_loops "of 961 rings of 24 dust run, 200 ticks or more" 1 4 16 64 256 961 ;;
    machines) sweep machines sweep_machines "pistons, 200 ticks or more" 10 100 1000 4000 12000 ;;
    storage)
      sweep storage sweep_storage "chests in a sector, a change before each of 20,000 ticks" \
        16 64 256 1000 4000 16000 40000
      ;;
  esac
}

run_workload() {
  local name
  case $1 in
    commands) for name in no_region 50_regions 500_regions chests; do row "$name" "$name"; done ;;
    *) row "$1" "$1" ;;
  esac
}

# The workloads first, as one table, and then the sweeps.
run_all() {
  local name
  [ -z "$workloads" ] || title workload
  for name in $workloads; do run_workload "$name"; done
  for name in $sweeps; do sweep_named "$name"; done
}

run_all | tee "$work/table"
[ -z "$plots" ] || python3 "$root/bench/plot.py" "$work/table" "$plots"
! grep -q 'replies differ' "$work/table"
