"$program" --json <examples/chest.vx | tools/record - chest 5 1 5
