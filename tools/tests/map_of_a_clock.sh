# The picture of docs/GUIDE.md.
tools/map examples/clock.vx --at 9 --program "$program" | cmp - docs/plots/clock.svg && echo the same
