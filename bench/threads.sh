#!/usr/bin/env bash
# Measures the shared queue and its waits, beside the kept queue alone and beside the same kept queue under the
# Mutex and Condvar of Rattle's std: bench/threads.sh, from any folder. It needs rt for the program, whose sources
# lie in bench/threads; that is built, and proved, if it has to be.
#
#   CALLS      calls of each run of one thread (default 400000, greatest 500000)
#   TRANSFERS  elements that go from thread to thread in each run of pairs (default 400000, greatest 500000)
#   WAKES      offers of each run in which a take waits for each (default 1000)
#   TAKES      takes of each run whose elements expire in 50 ms, 20 side by side (default 1000)
#   RUNS       runs of each kind, of which the medians count (default 5)
#
# Kinds that are compared run in turn, so that other load on the machine affects them alike.
set -euo pipefail
export LC_ALL=C

CALLS=${CALLS:-400000} TRANSFERS=${TRANSFERS:-400000} WAKES=${WAKES:-1000} TAKES=${TAKES:-1000} RUNS=${RUNS:-5}
if ((CALLS < 1000 || CALLS > 500000 || TRANSFERS < 1000 || TRANSFERS > 500000 || WAKES < 1 || TAKES < 20 || RUNS < 1)); then
    echo "bench: CALLS and TRANSFERS are 1000 to 500000, WAKES and RUNS from 1, TAKES from 20" >&2 && exit 2
fi

top=$(readlink -f -- "${BASH_SOURCE[0]}") && top=${top%/*/*}
program=$top/bench/threads/out/rb_bench
below=(rb_delayed rb_timer rb_binary rb_ledger rb_queue rb_kept rb_lock rb_bell rb_blocking)
room=$(mktemp -d) && trap 'rm -rf -- "$room"' EXIT

# Whether some source was changed since the program was built.
is_outdated() {
    [[ -x $program ]] || return 0
    local sources=("$top/crates.txt" "$top/bench/threads" "${below[@]/#/$top/crates/}")
    [[ -n $(find "${sources[@]}" \( -name out -o -name must-fail -o -name attacks \) -prune -o -type f -newer "$program" -print -quit) ]]
}

# Builds the program as a crate of a copy of the checkout. Here its sources are no crate, which every gate would prove,
# and end with .rattle, since the gate refuses files outside crates/ that end with .rt. What rt keeps stays in the
# checkout, so that it does not prove all again.
build() {
    local began name source kept=${program%/*} crate=$room/crates/rb_bench
    # What changes while the build runs may not be in it, so the program counts as made when it began.
    began=$(date +%s.%N)
    echo "bench: building the program, which takes minutes the first time, since its proofs are checked" >&2
    run_rt "$top/crates/rb_blocking" check --jobs 1
    mkdir -p -- "$crate/src" "$kept"
    for name in "${below[@]}"; do
        grep -E "^$name:" "$top/crates.txt" >> "$room/crates.txt"
        cp -a -- "$top/crates/$name" "$room/crates/"
    done
    echo "rb_bench: ${below[*]} crossbeam_utils" >> "$room/crates.txt"
    for source in "$top"/bench/threads/*.rattle; do
        name=${source##*/}
        cp -- "$source" "$crate/src/${name%.rattle}.rt"
    done
    cp -a -- "$kept" "$crate/out"
    run_rt "$crate" run --jobs 1 -- kept-sizes 1000
    cp -a -- "$crate/out/." "$kept"
    touch -d "@$began" -- "$program"
}

# Runs rt in a folder: the folder, and rt's words. It prints what rt said if that failed.
run_rt() {
    local folder=$1
    shift
    (cd -- "$folder" && rt "$@" > "$room/said" 2>&1) || { cat -- "$room/said" >&2 && exit 1; }
}

# The median of a column of numbers.
median() { sort -n | awk '{ n[NR] = $1 } END { print n[int((NR + 1) / 2)] }'; }

# Runs kinds in turn: how many pairs of threads (1 if a kind has none), a count, and the kinds. It keeps the
# median of the first and of the second figure of each kind.
declare -A first second
measure() {
    local pairs=$1 count=$2 kind
    shift 2
    rm -f -- "$room"/*.figures
    for ((run = 0; run < RUNS; run++)); do
        for kind; do
            "$program" "$kind" "$count" "$pairs" >> "$room/$kind.figures"
        done
    done
    for kind; do
        first[$kind-$pairs]=$(cut -d' ' -f1 "$room/$kind.figures" | median)
        second[$kind-$pairs]=$(cut -d' ' -f2 "$room/$kind.figures" | median)
    done
}

# The value of a formula, with this many places after the point.
sum() { awk "BEGIN { printf \"%.$1f\", $2 }"; }

# A line on one thread's calls: their name, the kind, the kind that it is compared with, and of how many units,
# of what name, each run was.
compare_calls() {
    local took=${first[$2-1]} other=${first[$3-1]}
    printf '%-34s %7s ns %-19s %s to %s, %+.1f ns\n' "$1" "$(sum 1 "$took / $4")" "$5" "$(sum 2 "$took / $other")" "$3" \
        "$(sum 1 "($took - $other) / $4")"
}

! is_outdated || build

measure 1 "$CALLS" kept-sizes call-sizes
measure 1 $((CALLS / 2)) kept-pairs call-pairs ring-pairs
compare_calls 'Size through a pass' call-sizes kept-sizes "$CALLS" 'a call'
compare_calls 'Offer and Poll through a pass' call-pairs kept-pairs $((CALLS / 2 * 2)) 'a call'
compare_calls 'the same, where each offer rings' ring-pairs call-pairs $((CALLS / 2)) 'an offer and a poll'

for pairs in 1 2 4; do
    measure $pairs "$TRANSFERS" pass-crowd mutex-crowd
    own=$(sum 0 "1e9 * ${second[pass-crowd-$pairs]} / ${first[pass-crowd-$pairs]}")
    other=$(sum 0 "1e9 * ${second[mutex-crowd-$pairs]} / ${first[mutex-crowd-$pairs]}")
    printf '%-34s %7d transfers/s %10s %s to mutex-crowd, %d\n' "$pairs producers, $pairs consumers" "$own" "" "$(sum 2 "$own / $other")" "$other"
done

measure 1 "$WAKES" pass-wakes mutex-wakes
measure 1 "$TAKES" pass-late mutex-late
for kind in wakes late; do
    for lock in pass mutex; do
        printf '%-34s %7s us median %9s us 99th\n' "$lock-$kind" "$(sum 1 "${first[$lock-$kind-1]} / 1e3")" "$(sum 1 "${second[$lock-$kind-1]} / 1e3")"
    done
    printf '%-34s %7s median    %9s 99th\n' "pass to mutex, $kind" "$(sum 2 "${first[pass-$kind-1]} / ${first[mutex-$kind-1]}")" \
        "$(sum 2 "${second[pass-$kind-1]} / ${second[mutex-$kind-1]}")"
done
