#!/usr/bin/env bash
# Measures `rb_broker script`: bench/script.sh, from any folder. It needs python3 for the inputs.
#
#   CALLS       calls of each heap run (default and greatest 1000000)
#   LIST_CALLS  calls of the list run (default: CALLS)
#   RUNS        runs of each kind and timer, of which the median counts (default 5)
#   OTHER       another build of rb_broker, to compare this one with when replies go to a file or a pipe
#
# Three kinds of input, in each of which S elements are in the queue all the time:
#   random    delays from 0 to 1,000,000,000 ns; AT moves time on to the least expiry, an element is offered,
#             and POLL takes one, which is DONE
#   timeouts  each element expires later than those before it; of twenty that leave, nineteen are removed by
#             REMOVE before they expire, and one is taken by POLL after AT, and is DONE
#   equal     all elements expire at once; one is offered, and the oldest leaves by REMOVE (POLL may take
#             any of them, so a file can't name the one that is DONE)
# AT and DONE are no calls, but their lines are read and answered in the times below.
set -euo pipefail
export LC_ALL=C

CALLS=${CALLS:-1000000} LIST_CALLS=${LIST_CALLS:-$CALLS} RUNS=${RUNS:-5}
SMALL=1000 LARGE=100000
if ((CALLS < 2 * LARGE || CALLS > 1000000 || LIST_CALLS < 2 * SMALL || LIST_CALLS > 1000000 || RUNS < 1)); then
    echo "bench: CALLS is 200000 to 1000000, LIST_CALLS 2000 to 1000000, RUNS from 1" >&2 && exit 2
fi

top=$(readlink -f -- "${BASH_SOURCE[0]}") && top=${top%/*/*}
program=$top/crates/rb_broker/out/rb_broker
"$top/broker" --help > /dev/null # builds it if it has to
room=$(mktemp -d) && trap 'rm -rf -- "$room"' EXIT

# Prints an input: its kind, how many elements are in the queue, how many calls. The seed is fixed.
make_input() {
    python3 - "$1" "$2" "$3" << 'PYTHON'
import heapq, random, sys
kind, size, calls = sys.argv[1], int(sys.argv[2]), int(sys.argv[3])
rng = random.Random(20261122)
lines = []

def random_delays():
    standing, used, now = [], set(), 0
    for at in range(size + (calls - size) // 2):
        if at >= size:
            now = max(now, standing[0][0])
            lines.append(f"AT {now}")
        delay = rng.randint(0, 1_000_000_000)
        while now + delay in used:
            delay = rng.randint(0, 1_000_000_000)
        used.add(now + delay)
        heapq.heappush(standing, (now + delay, at))
        lines.append(f"OFFER {delay} p{at}")
        if at >= size:
            lines.extend(["POLL", f"DONE {heapq.heappop(standing)[1]}"])

def timeouts():
    standing, place, first, now = list(range(size)), list(range(size)), 0, 0
    gone = set()
    for at in range(size):
        lines.append(f"OFFERAT {1_000_000 + at} p{at}")
    for at in range(size, size + (calls - size) // 2):
        if at % 20 == 0:
            while first in gone:
                gone.discard(first)
                first += 1
            lines.append(f"AT {1_000_000 + first}")
            lines.extend(["POLL", f"DONE {first}"])
            leaves = first
        else:
            leaves = standing[rng.randrange(len(standing))]
            lines.append(f"REMOVE {leaves}")
        where = place[leaves]
        standing[where] = standing[-1]
        place[standing[where]] = where
        standing.pop()
        gone.add(leaves)
        place.append(len(standing))
        standing.append(at)
        lines.append(f"OFFERAT {1_000_000 + at} p{at}")

def equal():
    for at in range(size + (calls - size) // 2):
        lines.append(f"OFFERAT 0 p{at}")
        if at >= size:
            lines.append(f"REMOVE {at - size}")

{"random": random_delays, "timeouts": timeouts, "equal": equal}[kind]()
lines += ["SIZE"] * ((calls - size) % 2) + ["QUIT"]
print("\n".join(lines))
PYTHON
}

# Runs one kind of input: its kind, S, calls, the output, and the timers, which run in turn, so that what else the
# machine does meets them alike. It keeps each median's nanoseconds per call under timer, kind and S.
declare -A per_call
measure() {
    local kind=$1 size=$2 calls=$3 output=$4 input="$room/$1-$2-$3" begun ended timer median
    shift 4
    [[ -e $input ]] || make_input "$kind" "$size" "$calls" > "$input"
    rm -f -- "$room"/times-*
    for ((run = 0; run < RUNS; run++)); do
        for timer; do
            begun=$EPOCHREALTIME
            "$program" script --timer "$timer" --calls "$calls" < "$input" > "$output"
            ended=$EPOCHREALTIME
            echo $((${ended/./} - ${begun/./})) >> "$room/times-$timer"
            if [[ $output != /dev/null ]] && grep -m 1 -E '^(ERR|NONE|REMOVED no)' "$output" >&2; then
                echo "bench: this input has no such reply" >&2 && exit 1
            fi
        done
    done
    for timer; do
        median=$(sort -n "$room/times-$timer" | sed -n "$(((RUNS + 1) / 2))p")
        per_call[$timer-$kind-$size]=$(awk "BEGIN { printf \"%.1f\", $median * 1000 / $calls }")
        printf '%-8s %-9s %7d %8d  %-9s %9.3f %9.1f   %s\n' "$timer" "$kind" "$size" "$calls" "${output##*/}" \
            "$(awk "BEGIN { print $median / 1e6 }")" "${per_call[$timer-$kind-$size]}" \
            "$(sort -n "$room/times-$timer" | awk '{ printf "%.3f ", $1 / 1e6 }')"
    done
}

# Runs random input through this program, through OTHER if that is named, and through cat, to a file and to a
# pipe: how many elements are in the queue.
compare_devices() {
    local size=$1 input="$room/random-$1-$CALLS" output name begun ended
    local names=(this ${OTHER:+other} cat)
    local -A command=([this]="$program" [other]="${OTHER:-}" [cat]=cat) median
    for output in file pipe; do
        rm -f -- "$room"/times-*
        for ((run = 0; run < RUNS; run++)); do
            for name in "${names[@]}"; do
                local words=("${command[$name]}")
                [[ $name == cat ]] || words+=(script --calls "$CALLS")
                begun=$EPOCHREALTIME
                if [[ $output == file ]]; then
                    "${words[@]}" < "$input" > "$room/file"
                else
                    "${words[@]}" < "$input" | cat > /dev/null
                fi
                ended=$EPOCHREALTIME
                echo $((${ended/./} - ${begun/./})) >> "$room/times-$name"
            done
        done
        for name in "${names[@]}"; do
            median[$name]=$(sort -n "$room/times-$name" | sed -n "$(((RUNS + 1) / 2))p")
            echo "$name, random, at $size, to a $output: $((median[$name] / 1000)) ms"
        done
        [[ -z ${OTHER:-} ]] || awk "BEGIN { printf \"this to other: %.2f\\n\", ${median[this]} / ${median[other]} }"
    done
}

ratio() { awk "BEGIN { printf \"%.2f\", ${per_call[$1]} / ${per_call[$2]} }"; }

printf '%-8s %-9s %7s %8s  %-9s %9s %9s   %s\n' timer input S calls output 'median s' ns/call 'each run, s'
for output in /dev/null "$room/file"; do
    measure random $SMALL "$LIST_CALLS" "$output" list
    for kind in random timeouts equal; do
        for size in $SMALL $LARGE; do
            measure "$kind" "$size" "$CALLS" "$output" heap pairing wheel
        done
    done
    echo "list to heap, random, at $SMALL: $(ratio list-random-$SMALL heap-random-$SMALL)"
    for kind in random timeouts equal; do
        for size in $SMALL $LARGE; do
            echo "to heap, $kind, at $size: pairing $(ratio "pairing-$kind-$size" "heap-$kind-$size"), wheel $(ratio "wheel-$kind-$size" "heap-$kind-$size")"
        done
        for timer in heap pairing wheel; do
            echo "$timer, $kind, at $LARGE to at $SMALL: $(ratio "$timer-$kind-$LARGE" "$timer-$kind-$SMALL")"
        done
    done
done
for size in $SMALL $LARGE; do
    compare_devices $size
done
