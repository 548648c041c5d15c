#!/usr/bin/env bash
# Proves and writes the archive, then tests it from C, C++ and Rust. Needs rt, gcc, g++ and cargo.
set -eu
cd "$(dirname "$0")/.."
tools/build.sh host
export CUZKELOR_LIB="$PWD/target/staticlib" CARGO_TARGET_DIR="$PWD/target/hostkit"
archive="$CUZKELOR_LIB/libhost.a"
out="$CARGO_TARGET_DIR"
mkdir -p "$out"

# What the header says of the archive: it needs memset alone, and has no state.
if nm --undefined-only "$archive" | grep ' U ' | grep -vE ' U memset$'; then
    echo 'the archive needs more than the header says'
    exit 1
fi
size "$archive" | awk 'NR > 1 && $2 + $3 > 0 { print "the archive has state"; exit 1 }'
echo 'archive: memset alone needed, no state'

strict=(-O2 -Wall -Wextra -pedantic -Wconversion -Werror)
for compiler in 'gcc -std=c99' 'gcc -std=c11' 'g++ -std=c++11 -x c++'; do
    echo "test.c by $compiler"
    $compiler "${strict[@]}" -o "$out/test" hostkit/c/test.c -x none "$archive"
    "$out/test"
done

# The examples, each by the command in its comment.
for example in example best; do
    command=$(sed -n 's/^ \* *\(gcc .*\)/\1/p' "hostkit/c/$example.c")
    $command "${strict[@]}"
done
target/example | diff - hostkit/c/example.stdout
target/best 2 2 4 4 3 < hostkit/c/best.din | diff - hostkit/c/best.stdout
if refused=$(yes '0 0' | head -n 25 | target/best 2 2 4 4 3 2>&1); then exit 1; fi
[[ $refused == 'refused by 12: '* ]]
echo 'examples: as expected'

# README's example, as it stands there.
awk '/^    #include "cuzkelor.h"/ { on = 1 } on && /^$/ { exit } on { print substr($0, 5) }' README.md > "$out/board.c"
gcc -std=c99 "${strict[@]}" -I hostkit -o "$out/board" "$out/board.c" "$archive"
[ "$("$out/board")" = 'no refusal: read 7, fetch 8' ]
echo "README's example: as expected"

cd hostkit/rust
cargo test --release --offline --locked -- --nocapture
echo 'host kit: all passed'
