#!/usr/bin/env bash
# Turns the proof files of the named crates and checks them, twice where answers fall: tools/port/port_crate.sh NAME.. at the top.
# What the check says goes to target/port/NAME.log.
top=$(pwd)
logs=$top/target/port
mkdir -p "$logs"
said() { grep -v '^checked\|^statements\|: proved$\|^note: \|^rt: \|^logic /\|^library \|^so far' "$1" | cut -c1-700 | head -40; }
for c in "$@"; do
  echo "== $c"
  cd "$top/crates/$c" || exit 1
  if grep -q 'Tie as tie' -r proofs; then
    rm -rf "$logs/$c"
    rt check --generated "$logs/$c" --old-names > "$logs/$c.log" 2>&1
    cd "$top" || exit 1
    if [ ! -f "$logs/$c/names.json" ]; then said "$logs/$c.log"; continue; fi
    python3 tools/port/answers.py "$c" "$logs/$c/names.json" | grep .
    cd "crates/$c" || exit 1
  fi
  rt fmt > /dev/null 2>&1
  rt check --fix-imports > "$logs/$c.log" 2>&1
  if ! grep -q '^logic=proved' "$logs/$c.log" && grep -q 'Answers.antt:.*error' "$logs/$c.log"; then
    cp "$logs/$c.log" "$logs/$c.first.log"
    (cd "$top" && git add -A && git stash create > "$logs/$c.before" && python3 tools/port/drop_failed.py "$c" "$logs/$c.log")
    rt check --fix-imports > "$logs/$c.log" 2>&1
  fi
  said "$logs/$c.log"
done
