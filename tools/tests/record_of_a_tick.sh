"$program" --json <examples/door.vx | tools/record - tick 2
