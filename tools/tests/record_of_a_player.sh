"$program" --json <examples/plot.vx | tools/record - player BOB
"$program" --json <examples/plot.vx | tools/record - player rob || echo "status $?"
