cat >"$work/console" <<END
region define plot cuboid 0 0 0 7 63 7
region define plot cuboid 0 0 0 7 63 7
tick
as ann place 1 1 1 stone
as ann place 1 1
explain ann block-place 9 1 1
together
tick
stop
END
tools/live examples/first.vx --port 0 --tick-every 0 --script "$work/evening.vx" --program "$program" <"$work/console" | sed 's/^join ann .*/join ann TOKEN/; s/port .*/port PORT/'
cat "$work/evening.vx"
