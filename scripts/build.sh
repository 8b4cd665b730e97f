#!/usr/bin/env bash
# Proves and builds `ncroute` and `ncimport`, and writes the first to OUT and the other beside it.
#
# usage: scripts/build.sh [--unproved] OUT
#        --unproved: builds the optimised programs of the sources as they are, in minutes, and proves nothing
set -eu
top="$(cd "$(dirname "$0")/.." && pwd)"
build=proved
if [ "${1:-}" = --unproved ]; then
    build=unproved
    shift
fi
if [ $# != 1 ] || [ -z "$1" ] || [ "${1#-}" != "$1" ]; then
    echo "usage: scripts/build.sh [--unproved] OUT" >&2
    exit 2
fi
beside="$(dirname "$1")/ncimport"
mkdir -p "$(dirname "$1")"
if [ $build = unproved ]; then
    "$top/scripts/build_unproved.py" ncroute "$1"
    exec "$top/scripts/build_unproved.py" ncimport "$beside"
fi
echo "proving and building ncroute and ncimport, which takes an hour or more from nothing" >&2
(cd "$top/crates/ncroute" && rt run -- --version >&2)
install -m 755 "$top/crates/ncroute/out/ncroute" "$1"
(cd "$top/crates/ncimport" && rt run -- --version >&2)
install -m 755 "$top/crates/ncimport/out/ncimport" "$beside"
