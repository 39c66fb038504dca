# Replies without a record, as the server writes them without --json, and a file without a line.
"$program" <examples/first.vx | tools/record - who 0 0 0
echo "status $?"
tools/record - chest 1 1 1 </dev/null
echo "status $?"
# JSON that is no line of a record: one has spaces, and one tells of no place.
echo '{"cmd": "look 0 0 0", "player": "ann", "reply": "seen air", "sector": 0, "tick": 1}' | tools/record - player ann
echo "status $?"
echo '{"fate":"moved far away","tick":1}' | tools/record - who 0 0 0
echo "status $?"
