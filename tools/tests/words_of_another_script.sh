# The replies of another script are told as such, also where this one has none.
: >"$work/empty.vx"
printf 'world 1 1 1\nplayer ann\n' >"$work/header.vx"
for script in "$work/empty.vx" "$work/header.vx"; do
  tools/words "$script" examples/first.stdout
  echo "status $?"
done
# What follows the last reply of this one is not passed on either.
printf 'ok default\nseen stone\nseen air\ndone ticks 0 calls 3\n' | tools/words examples/first.vx -
echo "status $?"
