#!/usr/bin/env bash
# Measures the broker on Redis, redis/, beside `rb_broker serve` and beside bare calls of its functions:
# bench/redis.sh, from any folder. It needs redis-server, the package redis for /usr/bin/python3, and rustc for the
# clients, bench/clients.rs, which say what they do.
#
#   ROUNDS   rounds (offer, take and done) of each run, of all its clients together (default 20000, at most 330000)
#   RUNS     runs of each kind, one of each in turn, of which the median by rounds a second counts (default 3)
#   CLIENTS  how many clients at the same time (default "16 1 256 2000")
#   GATEWAYS how many gateways share them (default "1 2 3")
#   WAKES    jobs that are waited for, to measure how late they come (default 500)
#   MINUTES  how long it takes at most: then runs are left out (default 8)
#   OTHER    a command that is given a port and that of a Redis, and serves the protocol from it, to compare with
#
# Each run has a Redis of its own, without persistence. Beside the rounds and the times of a request are the processor
# times of a round, in microseconds, of the first gateway or server and of the Redis, and the share of a processor that
# the Redis takes. A client alone makes no more than 3,000 rounds. Only gateways are tried with more than 256 clients,
# and `rb_broker serve` with no more than 16. Wakes are measured by themselves, and beside 16 clients that make rounds.
set -euo pipefail
export LC_ALL=C

ROUNDS=${ROUNDS:-20000} RUNS=${RUNS:-3} CLIENTS=${CLIENTS:-16 1 256 2000} GATEWAYS=${GATEWAYS:-1 2 3}
WAKES=${WAKES:-500} MINUTES=${MINUTES:-8}
if ((ROUNDS < 1000 || ROUNDS > 330000 || RUNS < 1 || WAKES < 100 || MINUTES < 1)); then
    echo "bench: ROUNDS is 1000 to 330000, RUNS from 1, WAKES from 100, MINUTES from 1" >&2 && exit 2
fi

top=$(readlink -f -- "${BASH_SOURCE[0]}") && top=${top%/*/*}
program=$top/crates/rb_broker/out/rb_broker
"$top/broker" --help > /dev/null # builds it if it has to
export PYTHONPATH=$top/redis/src:$top/clients/python/src PYTHONDONTWRITEBYTECODE=1
room=$(mktemp -d)
processes=()
end_all() {
    ((${#processes[@]} == 0)) || kill "${processes[@]}" 2> /dev/null || true
    ((${#processes[@]} == 0)) || wait "${processes[@]}" 2> /dev/null || true
    processes=()
}
trap 'end_all; rm -rf -- "$room"' EXIT
rustc --edition 2021 -O -o "$room/clients" "$top/bench/clients.rs"
ulimit -n "$(ulimit -Hn)"

# A port at which nobody listens now, below those that the system gives to clients.
free_port() {
    local port
    while port=$((20000 + RANDOM % 12000)) && (exec 3<> "/dev/tcp/127.0.0.1/$port") 2> /dev/null; do :; done
    echo "$port"
}

# Starts a process, and waits until its port can be connected to.
start() {
    local port=$1 looks
    shift
    "$@" > "$room/said" 2>&1 &
    processes+=($!)
    for ((looks = 0; looks < 200; looks++)); do
        ! (exec 3<> "/dev/tcp/127.0.0.1/$port") 2> /dev/null || return 0
        sleep 0.05
    done
    echo "bench: $* does not listen" >&2 && exit 1
}

# The processor time of a process so far, in microseconds.
spent() { awk '{ print int($1 / 1000) }' "/proc/$1/schedstat"; }

start_redis() {
    redis=$(free_port)
    start "$redis" redis-server --port "$redis" --bind 127.0.0.1 --save '' --appendonly no --dir "$room"
}

# Starts so many gateways of a queue. Their ports, with commas between them, are $ports.
start_gateways() {
    local count=$1 queue=${2:-bench} port
    ports=
    for ((; count > 0; count--)); do
        port=$(free_port)
        start "$port" /usr/bin/python3 -m rb_broker_redis serve --redis "redis://127.0.0.1:$redis" \
            --queue "$queue" --port "$port" --wait 10s
        ports+=${ports:+,}$port
    done
}

# One run of a kind with so many clients: rounds a second, median, 99th percentile, processor times.
run_once() {
    local kind=$1 clients=$2 batches peer=broker first=1 before after line
    batches=$(((ROUNDS + clients - 1) / clients))
    ((batches <= 3000)) || batches=3000
    [[ $kind == broker ]] || start_redis
    case $kind in
        broker) ports=$(free_port) first=0 && start "$ports" "$program" serve --port "$ports" --workers 16 --sessions 10000 --calls 1000000 ;;
        other) ports=$(free_port) && start "$ports" $OTHER "$ports" "$redis" ;;
        scripts) start_gateways 1 && ports=$redis peer=redis ;;
        *) start_gateways "${kind%%-*}" ;;
    esac
    before=("$(spent "${processes[first]}")" "$(spent "${processes[0]}")")
    line=$("$room/clients" measure "$peer" "$ports" "$clients" "$batches" 1) || exit 1
    after=("$(spent "${processes[first]}")" "$(spent "${processes[0]}")")
    echo "$line $(((after[0] - before[0]) / (batches + 20) / clients)) $(((after[1] - before[1]) / (batches + 20) / clients))"
    end_all
}

# Prints the median of the runs of a kind.
print_median() {
    local kind=$1 clients=$2 runs=$3
    sort -n "$runs" | awk -v kind="$kind" -v clients="$clients" '
        { line[NR] = $0; all = all $1 " " }
        END {
            split(line[int((NR + 1) / 2)], it, " ")
            share = kind == "broker" ? "" : sprintf("%d%%", it[1] * it[5] / 10000)
            printf "%-12s %7d %9d %9.1f %9.1f %9d %9d %9s   %s\n",
                kind, clients, it[1], it[2], it[3], it[4], it[5], share, all
        }'
}

kinds=(${OTHER:+other} $(printf '%d-gateways ' $GATEWAYS) scripts broker)
last=0
for ((run = 0; run < RUNS; run++)); do
    for clients in $CLIENTS; do
        for kind in "${kinds[@]}"; do
            [[ $kind != broker ]] || ((clients <= 16)) || continue
            [[ $kind == *gateway* ]] || ((clients <= 256)) || continue
            begun=$SECONDS
            if ((begun + last + 30 > MINUTES * 60)); then # the wakes take some time too
                echo "left out for want of time: $kind, $clients clients, run $((run + 1))"
                continue
            fi
            run_once "$kind" "$clients" >> "$room/$kind $clients"
            ((last >= SECONDS - begun)) || last=$((SECONDS - begun))
        done
    done
done

printf '%-12s %7s %9s %9s %9s %9s %9s %9s   %s\n' \
    kind clients rounds/s 'median us' '99th us' 'its us' 'redis us' 'redis' 'rounds/s of each run'
for clients in $CLIENTS; do
    for kind in "${kinds[@]}"; do
        [[ ! -f $room/$kind\ $clients ]] || print_median "$kind" "$clients" "$room/$kind $clients"
    done
done

# Prints how late the jobs come of 16 clients that wait, at these ports.
print_wakes() {
    local median late
    read -r median late < <("$room/clients" wake "$1" 16 "$WAKES")
    echo "from an expiry until a client that waits has the job, beside 15 that wait$2: median $median us, 99th percentile $late us"
}

start_redis
start_gateways 2 && loaded=$ports
start_gateways 1 waits && waiting=$ports
print_wakes "$waiting" ""
"$room/clients" measure broker "$loaded" 16 $((25 * WAKES)) 1 > "$room/rate" & load=$! # for as long, at 25,000 a second
print_wakes "$waiting" " and 16 of another queue and gateways"
wait "$load"
echo "these made $(cut -d ' ' -f 1 "$room/rate") rounds a second"
end_all
