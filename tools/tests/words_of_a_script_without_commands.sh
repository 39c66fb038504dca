# A script without a player opens no world, and the program writes nothing for it.
for text in '' '# Nothing.\n' '\n' 'world 1 1 1\n'; do
  printf "$text" >"$work/empty.vx"
  tools/words "$work/empty.vx" --program "$program"
  echo "played: status $?"
  tools/words "$work/empty.vx" - </dev/null
  echo "read: status $?"
done
# A world with a player is opened, and `done` is the one line that is written.
printf 'world 1 1 1\nplayer ann\n' >"$work/header.vx"
tools/words "$work/header.vx" --program "$program"
echo "played: status $?"
"$program" <"$work/header.vx" | tools/words "$work/header.vx" -
echo "read: status $?"
tools/words "$work/header.vx" - </dev/null
echo "read: status $?"
