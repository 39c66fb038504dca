# A world of 128 levels: a piston under its top, which pushes a stone up to y 127, and a lamp at y 63.
printf 'world 1 1 1 128\nplayer ann\nset 4 125 5 lever:down\nset 5 125 5 piston:up\nset 5 126 5 stone\nset 2 63 2 lamp\nas ann turn 4 125 5\ntick\n' >"$work/high.vx"
tools/map "$work/high.vx" --program "$program" | grep -o '<title>.*</title>'
tools/map "$work/high.vx" --y 127 --program "$program" | grep -o '<title>.*</title>'
tools/map "$work/high.vx" --y 126 --program "$program" | grep -o '<title>.*</title>'
tools/map "$work/high.vx" --y 63 --program "$program" | grep -o '<title>.*</title>'
tools/map "$work/high.vx" --y 128 --program "$program" || echo status $?
printf 'world 16 16 2 128\nplayer ann\nas ann place 511 127 511 stone\n' >"$work/wide.vx"
tools/map "$work/wide.vx" --box 500 500 600 600 --program "$program" | grep -oE '<title>.*</title>|d="M11 11h.*z"'
tools/map "$work/wide.vx" --box 512 0 600 600 --program "$program" || echo status $?
for size in '17 1 1' '1 1 1 96' '1 1 1 064' '1 1 1 64 64'; do
    printf "world $size\nplayer ann\n" >"$work/size.vx"
    tools/map "$work/size.vx" --program "$program" | grep -o '<title>.*</title>'
done
