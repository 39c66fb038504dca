"$program" --json <examples/plot.vx | tools/record - who 4 1 4
# A coordinate too few, and what is asked for.
tools/record - who 4 1 </dev/null >/dev/null 2>&1 || echo "status $?"
tools/record - who --help </dev/null | head -n 1
