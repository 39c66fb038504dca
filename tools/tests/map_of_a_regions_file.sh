# A region of the file, one that is accepted after the last tick, and what was denied to whom.
{ cat examples/file.vx; echo region define shed polygon 0 63 10 10 15 10 10 15; } >"$work/file.vx"
tools/map "$work/file.vx" --regions examples/plot.toml --program "$program"
