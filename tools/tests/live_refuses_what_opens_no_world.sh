printf 'world 1 1 1\nplayer ann\nas ann dance\n' >"$work/faulty.vx"
tools/live "$work/faulty.vx" --program "$program" 2>&1 || echo status $?
printf 'world 1 1 1\nplayer ann\ntogether\nas ann look 0 0 0\n' >"$work/open.vx"
tools/live "$work/open.vx" --program "$program" 2>&1 || echo status $?
printf 'world 1 1 1\nplayer ann\nplayer ann\ntick\n' >"$work/twice.vx"
tools/live "$work/twice.vx" --program "$program" --script "$work/evening.vx" 2>&1 || echo status $?
printf 'world 1 1 1 96\nplayer ann\n' >"$work/height.vx"
tools/live "$work/height.vx" --program "$program" 2>&1 || echo status $?
printf 'world 1 17 1 128\nplayer ann\n' >"$work/wide.vx"
tools/live "$work/wide.vx" --program "$program" 2>&1 || echo status $?
tools/live examples/first.vx --port 65536 >/dev/null 2>&1 || echo status $?
tools/live examples/first.vx --tick-every -1 >/dev/null 2>&1 || echo status $?
# A script in which nobody played is not left behind.
tools/live examples/first.vx --program "$work/none" --script "$work/evening.vx" 2>&1 || echo status $?
tools/live examples/first.vx --program "$program" --script "$work/evening.vx" --regions "$work/none" 2>&1 || echo status $?
[ ! -e "$work/evening.vx" ] || echo "it is left behind"
