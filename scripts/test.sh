#!/usr/bin/env bash
# The test command: proves every crate, builds and runs the programs, and then runs the parts that scripts/parts.txt lists. What an earlier run on this
# machine proved of the same files is kept, and a line before the last says how many proofs that was. The last line is 'N passed, M failed', the sum of
# all, and ', K skipped' behind it where something could not be run: a line says 'not run: WHY' of each. With CI=true in the environment it has failed.
#
# usage: scripts/test.sh [--all]              (--all: tries all wrong bodies, too)
#        scripts/test.sh --edits WORD..       tries wrong bodies alone, as scripts/check_edits.py says: NAME.., `--since COMMIT` or `--all`
#        scripts/test.sh --quick              proves nothing: builds the program without proofs, and runs all parts on it
#        scripts/test.sh PART..               proves nothing: runs the parts named on the program NCROUTE=PATH, or else on one built without proofs
set -u
cd "$(dirname "$0")/.." || exit
list=scripts/parts.txt
all_parts="$(sed -nE 's/^([a-z_]+) .*/\1/p' $list | xargs)"
parts="$all_parts"
is_proved=yes
edits=""

usage() {
    echo "usage: scripts/test.sh [--all | --edits WORD.. | --quick | PART..]     (PART: ${all_parts// /, })" >&2
    exit 2
}

case "$*" in
    "") unset TEST_CALLS BENCH_PARTS ;;
    --quick)
        is_proved=""
        unset NCROUTE TEST_CALLS BENCH_PARTS
        ;;
    --all)
        edits=yes
        unset TEST_CALLS BENCH_PARTS
        ;;
    --edits*)
        exec scripts/check_edits.py "${@:2}"
        ;;
    *)
        for part in "$@"; do
            [[ " $all_parts " = *" $part "* ]] || usage
        done
        is_proved=""
        parts="$*"
        ;;
esac
folder="$(mktemp -d)" || exit
trap 'jobs -p | xargs -r kill; rm -rf "$folder"' EXIT
trap 'exit 130' INT TERM
output="$folder/output"
passed=0 failed=0 skipped=0

# Runs one part, and adds what the last line of its counts says. A part that counts nothing has failed.
add() {
    "$@" 2>&1 | tee "$output"
    local status=${PIPESTATUS[0]} counts
    # What a process that ends still says on standard error may come behind it.
    counts="$(sed -nE 's/^([0-9]+) passed, ([0-9]+) failed(, ([0-9]+) skipped)?$/\1 \2 0\4/p' "$output" | tail -n 1)"
    local ok=0 bad=0 left=0
    read -r ok bad left <<<"$counts"
    passed=$((passed + 10#0$ok))
    failed=$((failed + 10#0$bad))
    skipped=$((skipped + 10#0$left))
    if [ -z "$counts" ] || [ "$((10#0$ok + 10#0$bad + 10#0$left))" = 0 ] || { [ "$status" != 0 ] && [ "$((10#0$bad))" = 0 ]; }; then
        failed=$((failed + 1))
    fi
}

if [ -n "$is_proved" ]; then
    # `rt ci` sets aside two or three times the memory that a check takes: with 24 GB processors would stand still beside the longest checks.
    memory="$(sed -nE 's/^MemAvailable: +([0-9]+) kB$/\1/p' /proc/meminfo 2>/dev/null)"
    if [ -z "${RT_JOBS:-}" ] && [ "${memory:-0}" -ge "$((5500000 * $(nproc)))" ]; then
        RT_JOBS="$(nproc)"
        export RT_JOBS
    fi
    add rt ci
    # What of it was proved in this run, by its own words, and what is kept from earlier ones.
    proofs="$(sed -nE 's/^rt: ok.*; (done in this run: .*|every proof .*)$/\1/p' "$output" | tail -n 1)"
    # What the gate took so far, by the system's own sum, as bench/GATE.md counts it.
    times >"$output"
    echo "rt ci: $(tail -n 1 "$output") of processor time, in user code and in the system"
    # The programs that the gate has built run the examples. Without them the sources do, by `rt try`.
    if [ -x crates/ncroute/out/ncroute ] && [ -x crates/ncimport/out/ncimport ]; then
        install -D -m 755 -t "$folder/bin" crates/ncroute/out/ncroute crates/ncimport/out/ncimport
        export NCROUTE="$folder/bin/ncroute"
    fi
elif [ -z "${NCROUTE:-}" ]; then
    export NCROUTE="$folder/ncroute"
    begun=$SECONDS
    if ! scripts/build.sh --unproved "$NCROUTE"; then
        echo "0 passed, 1 failed"
        exit 1
    fi
    echo "the build: $((SECONDS - begun)) s"
fi
[ -z "$edits" ] || add scripts/check_edits.py --all --write
# The tests of tests/calls/ are built once for all parts that need them, by the first of these.
export TEST_CALLS="${TEST_CALLS:-$folder/test_calls}"
# Three of the longest parts run beside the others, where there are processors for both. What they say comes behind that of the others.
beside=""
if [ "$*" = --quick ] && [ "$(nproc)" -ge 4 ]; then
    beside="kills kernel library"
    # shellcheck disable=SC2086
    scripts/test.sh $beside >"$folder/beside" 2>&1 &
fi
for part in $parts; do
    [[ " $beside " != *" $part "* ]] || continue
    read -ra words <<<"$(sed -nE "s/^$part +\| ([^|]*) \|.*/\1/p" $list)"
    begun=$SECONDS
    add "scripts/${words[0]}" "${words[@]:1}"
    echo "$part: $((SECONDS - begun)) s"
done
if [ -n "$beside" ]; then
    wait $!
    add sed '/^no proof was made/d' "$folder/beside"
fi
if [ -z "$is_proved" ]; then
    echo "no proof was made: \`rt ci\` did not run"
else
    echo "rt ci: ${proofs:-it proved not all}"
fi
if [ "$skipped" = 0 ]; then
    echo "$passed passed, $failed failed"
else
    echo "$passed passed, $failed failed, $skipped skipped"
fi
[ "$failed" = 0 ]
