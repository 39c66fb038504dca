"$program" --json <examples/clock.vx | tools/record - who 3 1 5
