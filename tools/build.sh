#!/usr/bin/env bash
# Proves and builds: 'tools/build.sh buscount' writes target/bin/buscount, 'tools/build.sh host' writes target/staticlib/libhost.a.
set -eu
cd "$(dirname "$0")/.."
case ${1:-} in
    buscount)
        (cd crates/buscount && rt run < stdin > /dev/null)
        mkdir -p target/bin
        cp crates/buscount/out/buscount target/bin/buscount
        ;;
    host)
        (cd crates/host && rt lib)
        mkdir -p target/staticlib
        cp crates/host/out/libhost.a target/staticlib/libhost.a
        ;;
    *)
        echo 'usage: tools/build.sh buscount|host' >&2
        exit 2
        ;;
esac
