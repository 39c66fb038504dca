"$program" --json <examples/chest.vx >"$work/record"
tools/record "$work/record" undo ann
tools/record "$work/record" undo bob --as ann
# A lever is on again; what stood as the world opened is known by its script; and what others built on stays.
cat >"$work/back.vx" <<END
world 2 1 1
player ann
player bob
set 1 1 1 glass
as ann break 1 1 1
as ann place 1 1 1 stone
as ann place 2 1 1 lever:down
as bob turn 2 1 1
as ann break 2 1 1
tick
as ann place 3 1 1 dirt
as bob break 3 1 1
as bob place 3 1 1 planks
as ann place 20 1 1 bedrock
END
"$program" --json <"$work/back.vx" >"$work/record"
tools/record "$work/record" undo ann
tools/record "$work/record" undo ann --opening "$work/back.vx"
tools/record "$work/record" undo ann --since 2
tools/record "$work/record" undo ann --box 0 0 0 2 63 15 --as bob
# What a piston may have moved is left, and no piston moves a chest; one that is known to face elsewhere has moved nothing here.
cat >"$work/pistons.vx" <<END
world 1 1 1
player ann
set 4 1 4 piston:east
set 3 1 4 lever:east
as ann place 6 1 4 stone
as ann place 4 1 6 stone
as ann place 4 1 8 chest
as ann turn 3 1 4
tick
END
"$program" --json <"$work/pistons.vx" >"$work/record"
tools/record "$work/record" undo ann
tools/record "$work/record" undo ann --opening "$work/pistons.vx"
