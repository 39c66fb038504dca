# What the benchmarks measure of a program that reads a script. To be sourced.

# The least of three wall-clock times, in microseconds.
microseconds() {
  local least=999999999 start end
  for _ in 1 2 3; do
    start=$(date +%s%N)
    "$1" <"$2" >/dev/null
    end=$(date +%s%N)
    [ $(((end - start) / 1000)) -ge "$least" ] || least=$(((end - start) / 1000))
  done
  echo "$least"
}

# Runs a program on several scripts in turn, so many turns: a line for each script, in their order, with the least and the middle of its wall-clock times,
# in microseconds. Times that are divided by one another come from one run of it, since a machine is not equally quick from minute to minute.
#   in_turn TURNS PROGRAM SCRIPT ..
in_turn() {
  local turns=$1 program=$2 start end turn script
  shift 2
  for ((turn = 0; turn < turns; turn++)); do
    for ((script = 1; script <= $#; script++)); do
      start=$(date +%s%N)
      "$program" <"${!script}" >/dev/null
      end=$(date +%s%N)
      echo "$script $(((end - start) / 1000))"
    done
  done | sort -n -k 1,1 -k 2,2 | awk -v turns="$turns" '(NR - 1) % turns == 0 { least = $2 } (NR - 1) % turns == int(turns / 2) { print least, $2 }'
}

# One number by another, to two places.
quotient() {
  awk -v a="$1" -v b="$2" 'BEGIN { printf "%.2f", a / b }'
}

# The most memory that a run took, in KiB.
kibibytes() {
  /usr/bin/time -f %M "$1" <"$2" 2>&1 >/dev/null | tail -n 1
}
