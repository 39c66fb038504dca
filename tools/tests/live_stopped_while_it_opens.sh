# A program that never answers: the world does not open.
printf '#!/bin/sh\nexec sleep 600\n' >"$work/slow"
chmod +x "$work/slow"
printf 'world 1 1 1\nplayer ann\nas ann look 0 0 0\n' >"$work/world.vx"
tools/live "$work/world.vx" --port 0 --program "$work/slow" --script "$work/evening.vx" &
host=$!
until [ -e "$work/evening.vx" ] || ! kill -0 "$host"; do sleep 0.1; done
kill -TERM "$host"
wait "$host" || echo "status $?"
if [ -e "$work/evening.vx" ]; then echo "its script is left"; fi
