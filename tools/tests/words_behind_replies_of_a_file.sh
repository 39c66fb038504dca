tools/words examples/file.vx examples/file.stdout --regions examples/plot.toml
"$program" <examples/together.vx | tools/words examples/together.vx -
# A record is passed on as it is.
"$program" --json <examples/denied.vx | tools/words examples/denied.vx -
