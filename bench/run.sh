#!/usr/bin/env bash
# Builds the programs and the plain one, checks that they answer the same, and prints their times and ratios: of `ncroute eval`, `run`, `domain` and
# `check` as a whole, of the machines alone, or of the router alone. `ncroute` and `ncimport` are proved; `bench_parts` is built without proofs, over
# the sources of the crates that the gate proves.
#
# usage: bench/run.sh [table|eval|check|machines|instructions|bird|router|endless|callers|script|save|domain|lookup|diff|names|imports|hostile|library]     (without a word: eval and machines)
#   table prints the first table of README.md: the instructions of eval, check and run on all inputs; with ROUNDS=N their times too.
#     A second word, eval, check or run, has it print the rows of that command alone
#   instructions counts instructions of the machines with valgrind, in place of their time
#   endless compares a router without end with one that keeps its history, by one caller
#   callers prints a table of calls through the lock and through a Mutex, with their tails
#   bird compares the machine for verified code with BIRD 2.0, where that is installed
#   save compares `ncroute run --save` with `ncroute run`
#   lookup times the lookup of an int in sets of 3 to 1,024 ranges, and the match of a prefix in sets of 12 to 1,024 patterns
#   diff times `ncroute diff` and `ncroute lint` on lists of 290 and 1,024 patterns
#   names counts instructions of scripts with names that would collide in a table by std's hash, beside other names
#   imports counts instructions of `ncimport` for configurations of 100 to 800 filters
#   hostile times commands on inputs that are made to take long
#   library times calls of the library for C beside the same runs in Rattle; FILTER_C=PATH names an archive that is built already
#   NCROUTE=PATH       a proved `ncroute` that is built already, with `ncimport` beside it: then none is built here
#   BENCH_PARTS=PATH   a `bench_parts` that is built already
#   ROUNDS=N           how often each program is run on each input (7)
#   ROUTES=N           the number of route lines of each input of `eval` (200,000, of straight_filter 100,000)
set -eu
bench="$(cd "$(dirname "$0")" && pwd)"
wanted="${1:-both}"
case "$wanted" in
    both | table | eval | check | machines | instructions | bird | router | endless | callers | script | save | domain | lookup | diff | names | imports | hostile | library) ;;
    *)
        sed -n '/^# usage/,/^set /{/^#/s/^# \{0,1\}//p}' "$0" >&2
        exit 2
        ;;
esac
folder="$(mktemp -d)"
trap 'rm -rf "$folder"' EXIT

# Proves and builds a program, and has it end at once.
build() {
    echo "proving and building $1" >&2
    (cd "$bench/../crates/$1" && rt run -- "${@:2}" <stdin) >"$folder/build" 2>&1 || {
        cat "$folder/build" >&2
        exit 1
    }
}

rustc --edition 2021 -O -o "$folder/plain" "$bench/baseline/main.rs"

# Sees to it that NCROUTE names a program.
need_ncroute() {
    if [ -z "${NCROUTE:-}" ]; then
        build ncroute --help
        NCROUTE="$bench/../crates/ncroute/out/ncroute"
    fi
}

# Sees to it that NCIMPORT names a program: the one beside `ncroute`, where that is built already.
need_ncimport() {
    if [ -z "${NCROUTE:-}" ]; then
        build ncimport --help
        NCIMPORT="$bench/../crates/ncimport/out/ncimport"
    else
        NCIMPORT="$(dirname "$NCROUTE")/ncimport"
    fi
}

# Sees to it that BENCH_PARTS names a program.
need_bench_parts() {
    if [ -z "${BENCH_PARTS:-}" ]; then
        BENCH_PARTS="$folder/bench_parts"
        "$bench/../scripts/build_unproved.py" bench_parts "$BENCH_PARTS"
    fi
}

# Compares `ncroute` and the plain program, started with the same words, on inputs.
compare() {
    need_ncroute
    "$bench/compare.py" "$NCROUTE" "$folder/plain" "$1" "${ROUNDS:-7}" "${@:2}"
}

if [ "$wanted" = both ] || [ "$wanted" = eval ]; then
    inputs=()
    for name in accept_alone add_two_and_clip set_of_1024 case_of_64 straight_filter; do
        "$bench/generate.py" "$name" ${ROUTES:+"$ROUTES"} >"$folder/$name"
        inputs+=("$folder/$name")
    done
    compare eval "${inputs[@]}"
fi

if [ "$wanted" = table ]; then
    need_ncroute
    "$bench/table.py" "$NCROUTE" "$folder/plain" "${ROUNDS:-0}" "$folder" "${@:2}"
    exit
fi

if [ "$wanted" = check ]; then
    inputs=()
    for name in text_of_sets text_of_expressions text_of_case text_of_labels; do
        "$bench/generate.py" "$name" >"$folder/$name"
        inputs+=("$folder/$name")
    done
    compare "check --size 64" "${inputs[@]}" /dev/null
    exit
fi

if [ "$wanted" = script ]; then
    inputs=()
    for kind in mixed messages case dense imports; do
        for size in 16 64 250; do
            "$bench/script.py" "$kind" "$size" >"$folder/${kind}_$size"
            inputs+=("$folder/${kind}_$size")
        done
    done
    compare run "${inputs[@]}"
    exit
fi

if [ "$wanted" = save ]; then
    inputs=()
    for kind in mixed messages dense; do
        "$bench/script.py" "$kind" 16 >"$folder/${kind}_16"
        inputs+=("$folder/${kind}_16")
    done
    need_ncroute
    "$bench/save.py" "$NCROUTE" "${ROUNDS:-7}" "${inputs[@]}"
    exit
fi

if [ "$wanted" = domain ]; then
    inputs=()
    for nodes_links in 64=250 250=1000; do
        "$bench/domain.py" "${nodes_links%=*}" "${nodes_links#*=}" >"$folder/domain_of_${nodes_links%=*}"
        inputs+=("$folder/domain_of_${nodes_links%=*}")
    done
    for question in failures "failures nodes"; do
        asked="$folder/${question/ /_of_}_of_250"
        { grep -v '^table' "$folder/domain_of_250"; echo "$question"; } >"$asked"
        inputs+=("$asked")
    done
    compare domain "${inputs[@]}"
    exit
fi

if [ "$wanted" = router ]; then
    need_bench_parts
    inputs=()
    for size in 16 64 250; do
        for kind_rounds in changes=25000 no_changes=11000 show=62000 down_up=40000 imports=99000; do
            "$bench/events.py" "${kind_rounds%=*}" "$size" >"$folder/${kind_rounds%=*}_$size"
            inputs+=("$folder/${kind_rounds%=*}_$size=$((${kind_rounds#*=} * 16 / size))")
        done
    done
    "$bench/router.py" "$BENCH_PARTS" "$folder/plain" "${ROUNDS:-7}" "${inputs[@]}"
elif [ "$wanted" = endless ]; then
    need_bench_parts
    inputs=()
    for kind in changes no_changes show; do
        "$bench/events.py" "$kind" 16 >"$folder/$kind"
        inputs+=("$folder/$kind")
    done
    "$bench/endless.py" "$BENCH_PARTS" "${ROUNDS:-5}" "${inputs[@]}"
elif [ "$wanted" = callers ]; then
    need_bench_parts
    inputs=()
    for kind in show no_changes; do
        "$bench/events.py" "$kind" 16 >"$folder/$kind"
        inputs+=("$folder/$kind")
    done
    "$bench/callers.py" "$BENCH_PARTS" "$folder/plain" "${ROUNDS:-7}" "${inputs[@]}"
elif [ "$wanted" = lookup ]; then
    need_ncroute
    "$bench/lookup.py" "$NCROUTE" "${ROUNDS:-7}"
elif [ "$wanted" = diff ]; then
    need_ncroute
    "$bench/diff.py" "$NCROUTE" "${ROUNDS:-7}"
elif [ "$wanted" = names ]; then
    need_ncroute
    "$bench/names.py" "$NCROUTE"
elif [ "$wanted" = imports ]; then
    need_ncimport
    "$bench/imports.py" "$NCIMPORT"
elif [ "$wanted" = hostile ]; then
    need_ncimport
    need_ncroute
    "$bench/hostile.py" "$NCROUTE" "$NCIMPORT"
elif [ "$wanted" = library ]; then
    need_ncroute
    need_bench_parts
    "$bench/../scripts/install.sh" --library "$folder/prefix" >&2
    "${CC:-cc}" -O2 -o "$folder/library" "$bench/library.c" -I"$folder/prefix/include" "$folder/prefix/lib/libgomthau_filter.a"
    "$bench/library.py" "$folder/library" "$BENCH_PARTS" "$NCROUTE" "${ROUNDS:-7}"
elif [ "$wanted" = bird ]; then
    need_ncroute
    need_bench_parts
    "$bench/bird.py" "$BENCH_PARTS" "$NCROUTE" "${ROUNDS:-7}"
elif [ "$wanted" != eval ]; then
    need_bench_parts
    inputs=()
    for name_rounds in accept_alone=1000 add_two_and_clip=500 set_of_1024=20 case_of_64=20 straight_filter=5; do
        "$bench/generate.py" "${name_rounds%=*}" 20000 1 64 >"$folder/${name_rounds%=*}"
        inputs+=("$folder/$name_rounds")
    done
    in_c=none
    if command -v gcc >/dev/null; then
        in_c="$folder/machines"
        gcc -O3 -o "$in_c" "$bench/baseline/machines.c"
    fi
    [ "$wanted" = instructions ] && measure=instructions || measure="${ROUNDS:-7}"
    "$bench/machines.py" "$BENCH_PARTS" "$folder/plain" "$in_c" "$measure" "${inputs[@]}"
fi
