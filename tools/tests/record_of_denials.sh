"$program" --json <examples/clock.vx | tools/record - denied
"$program" --json <examples/plot.vx | tools/record - denied bob
echo '{"denied ":"reply":"refused 2 ' | tools/record - denied || echo status $?
