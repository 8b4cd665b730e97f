#!/usr/bin/env bash
# Runs the soak: one router after another, each called by four threads over links that fail, and its journal checked at the end.
# tests/calls/soak.rattle says what is checked. The last line is `test result: ok`.
#
# usage: scripts/soak.sh [SECONDS [SEED]]      (60 seconds, seed 1)
#   TEST_CALLS=PATH   the tests of tests/calls/, or where they are to be built, without proofs, if they are not there
set -eu
top="$(cd "$(dirname "$0")/.." && pwd)"
if [ -z "${TEST_CALLS:-}" ]; then
    folder="$(mktemp -d)"
    trap 'rm -rf "$folder"' EXIT
    TEST_CALLS="$folder/test_calls"
fi
[ -e "$TEST_CALLS" ] || "$top/scripts/build_unproved.py" test_calls "$TEST_CALLS"
SOAK_SECONDS="${1:-60}" SOAK_SEED="${2:-1}" "$TEST_CALLS" soak::routers_are_soaked
