printf 'world 1 1 1\nplayer ann\nas ann dance\n' >"$work/faulty.vx"
tools/map "$work/faulty.vx" --program "$program" || echo status $?
tools/map examples/door.vx --at 9 --program "$program" || echo status $?
tools/map examples/door.vx --box 16 0 20 5 --program "$program" || echo status $?
tools/map examples/door.vx --y 64 --program "$program" || echo status $?
printf 'world 1 1 1\nplayer ann\ntogether\nas ann place 0 0 0 stone\n' >"$work/open.vx"
tools/map "$work/open.vx" --program "$program" || echo status $?
printf 'world 1 1 1\nplayer ann\nset %05000d 0 9 stone\n' 9 >"$work/long.vx"
tools/map "$work/long.vx" --program "$program" || echo status $?
