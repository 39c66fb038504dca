printf 'world 1 1 1\nplayer ann\nas ann look 0 0 0\nas ann dance\n' >"$work/faulty.vx"
tools/words "$work/faulty.vx" --program "$program" || echo status $?
# Replies kept with the words of their fault, and without; those of a run that was cut short; and
# those of another script.
"$program" <"$work/faulty.vx" 2>&1 | tools/words "$work/faulty.vx" - || echo status $?
"$program" <"$work/faulty.vx" 2>/dev/null | tools/words "$work/faulty.vx" - || echo status $?
head -n 2 examples/denied.stdout | tools/words examples/denied.vx - || echo status $?
tools/words examples/plot.vx examples/denied.stdout || echo status $?
tools/words examples/plot.vx "$work/faulty.vx" || echo status $?
# What is wrong with a line, where it is no line of a script or stands where none may stand.
for line in 'as ann look 0,0,0' 'ann look 0 0 0' 'as bob look 0 0 0' 'player bob' 'end' 'as ann place 0 0 0 torch:up' 'as ann look 0 0 0 # café'; do
  printf 'world 1 1 1\nplayer ann\ntick\n%s\n' "$line" >"$work/line.vx"
  tools/words "$work/line.vx" --program "$program" 2>&1 | tail -n 1
done
printf 'world 1 1 1\nplayer ann\nplayer Ann\n' >"$work/line.vx"
tools/words "$work/line.vx" --program "$program" 2>&1 | tail -n 1
# More players than a world may have.
{ echo world 1 1 1; seq -f 'player p%g' 65; } >"$work/many.vx"
tools/words "$work/many.vx" --program "$program" || echo status $?
tools/words "$work/many.vx" - </dev/null || echo status $?
