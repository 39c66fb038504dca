tools/map examples/door.vx --y 2 --box 2 2 13 13 --program "$program"
