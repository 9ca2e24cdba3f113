#!/usr/bin/env bash
# Measures `rb_broker serve` against an echo server, against bench/plain.rs, a server of the same requests in plain
# Rust, and against beanstalkd if that is installed: bench/serve.sh, from any folder. It needs rustc for the plain
# server and for the clients, bench/clients.rs, which say what they do.
#
#   CLIENTS       how many clients the rounds have, each number of them at most 16 (default "1 4 16")
#   ROUNDS        rounds (offer, take and done) of each run one by one, of all its clients together (default 60000, at most 400000)
#   BATCH_ROUNDS  rounds of each run in batches of 32 (default 320000, at most 400000)
#   OFFERS        offers of each run beside 15 clients that wait in a take (default 60000, at most 400000)
#   RUNS          runs of each kind, in turn with the other servers, of which the median by rounds a second counts (default 3)
#   OTHER         another build of rb_broker, to compare this one with
#
# Each run has a server of its own, whose workers, or threads of the echo server, are as many as the clients.
# The times are those of an exchange, which is one request, or 32 in one piece, until its last reply. In batches
# there is a second echo server, which sends each line by a write of its own.
set -euo pipefail
export LC_ALL=C
# Every server gets what ./broker and the service set, so that a history is in huge pages.
export GLIBC_TUNABLES=${GLIBC_TUNABLES-glibc.malloc.hugetlb=1}

CLIENTS=${CLIENTS:-1 4 16} ROUNDS=${ROUNDS:-60000} BATCH_ROUNDS=${BATCH_ROUNDS:-320000} OFFERS=${OFFERS:-60000} RUNS=${RUNS:-3}
if ((ROUNDS < 1600 || ROUNDS > 400000 || BATCH_ROUNDS < 1600 || BATCH_ROUNDS > 400000 ||
    OFFERS < 1600 || OFFERS > 400000 || RUNS < 1)); then
    echo "bench: ROUNDS, BATCH_ROUNDS and OFFERS are 1600 to 400000, RUNS from 1" >&2 && exit 2
fi
for clients in $CLIENTS; do
    ((clients >= 1 && clients <= 16)) || { echo "bench: CLIENTS are numbers of 1 to 16" >&2 && exit 2; }
done

top=$(readlink -f -- "${BASH_SOURCE[0]}") && top=${top%/*/*}
program=$top/crates/rb_broker/out/rb_broker
"$top/broker" --help > /dev/null # builds it if it has to
room=$(mktemp -d) && trap 'rm -rf -- "$room"' EXIT
rustc --edition 2021 -O -o "$room/clients" "$top/bench/clients.rs"
rustc --edition 2021 -O -C target-cpu=x86-64-v2 -o "$room/plain" "$top/bench/plain.rs"
builds=(broker ${OTHER:+other})
peers=(plain "${builds[@]}")
! command -v beanstalkd > /dev/null || peers+=(beanstalkd)

# The command of a peer's server: the peer, and the number of clients. Its words are in $command.
command_of() {
    case $1 in
        broker) command=("$program" serve --port "$port" --workers "$2" --sessions "$2" --calls 1000000) ;;
        other) command=("$OTHER" serve --port "$port" --workers "$2" --sessions "$2" --calls 1000000) ;;
        plain) command=("$room/plain" serve "$port" "$2") ;;
        echo | lines) command=("$room/clients" "$1-server" "$port" "$2" "$2") ;;
        beanstalkd) command=(beanstalkd -l 127.0.0.1 -p "$port") ;;
    esac
}

# Whether a peer's server at $port can be connected to. All but beanstalkd count their clients, and say so by a line.
is_ready() {
    case $1 in
        beanstalkd) (exec 3<> "/dev/tcp/127.0.0.1/$port") 2> /dev/null ;;
        *) [[ -s $room/served ]] ;;
    esac
}

# Starts a peer's server for this many clients, at a port of its own choice, $port. Its process is $server.
start_server() {
    local tries looks command
    for ((tries = 0; tries < 20; tries++)); do
        port=$((20000 + RANDOM % 12000)) # below those that the system gives to clients
        : > "$room/served"
        command_of "$1" "$2"
        "${command[@]}" > "$room/served" 2> "$room/errors" &
        server=$!
        for ((looks = 0; looks < 100; looks++)); do
            kill -0 "$server" 2> /dev/null || break
            ! is_ready "$1" || return 0
            sleep 0.05
        done
        kill "$server" 2> /dev/null || true
        wait "$server" || true
    done
    echo "bench: no server of $1 could be started" >&2 && exit 1
}

# One run: the peer, clients, batches of each client, and requests in a batch. Its line is that of the clients.
run_once() {
    local peer=$1
    [[ $peer != other && $peer != plain ]] || peer=broker # their clients send the same
    start_server "$1" "$2"
    "$room/clients" measure "$peer" "$port" "$2" "$3" "$4" || { kill "$server" && exit 1; }
    [[ $1 != beanstalkd ]] || kill "$server"
    wait "$server" || [[ $1 == beanstalkd ]]
}

# Runs of one kind, the peers in turn, and a line of the table for each: clients, requests in a batch, peers.
declare -A rounds
measure() {
    local clients=$1 batch=$2 all=$ROUNDS peer line
    shift 2
    ((batch == 1)) || all=$BATCH_ROUNDS
    rm -f -- "$room"/*.runs
    for ((run = 0; run < RUNS; run++)); do
        for peer; do
            run_once "$peer" "$clients" $((all / batch / clients)) "$batch" >> "$room/$peer.runs"
        done
    done
    for peer; do
        sort -n -o "$room/$peer.runs" "$room/$peer.runs"
        line=$(sed -n "$(((RUNS + 1) / 2))p" "$room/$peer.runs")
        rounds[$peer-$clients-$batch]=${line%% *}
        printf '%-10s %7d %5d %9d %9.1f %9.1f   %s\n' "$peer" "$clients" "$batch" $line \
            "$(cut -d' ' -f1 "$room/$peer.runs" | tr '\n' ' ')"
    done
}

ratio() { awk "BEGIN { printf \"%.2f\", ${rounds[$1]} / ${rounds[$2]} }"; }

printf '%-10s %7s %5s %9s %9s %9s   %s\n' server clients batch rounds/s 'median us' '99th us' 'rounds/s of each run'
for batch in 1 32; do
    for clients in $CLIENTS; do
        echoes=(echo)
        ((batch == 1)) || echoes+=(lines)
        measure "$clients" "$batch" "${echoes[@]}" "${peers[@]}"
    done
done
for kind in "${!rounds[@]}"; do
    [[ $kind == broker-* ]] || echo "broker to ${kind%%-*}, clients and batch ${kind#*-}: $(ratio "broker-${kind#*-}" "$kind")"
done | sort -V

# Offers a second of one client, so many in one piece, beside 15 clients that wait in a take. The builds run in turn.
measure_offers() {
    local batch=$1 build
    rm -f -- "$room"/*.offers
    for ((run = 0; run < RUNS; run++)); do
        for build in "${builds[@]}"; do
            start_server "$build" 16
            "$room/clients" waiting "$port" 15 $((OFFERS / batch * batch)) "$batch" >> "$room/$build.offers" || { kill "$server" && exit 1; }
            kill "$server" 2> /dev/null || true # unless none of its sessions waits any more
            wait "$server" || true
        done
    done
    for build in "${builds[@]}"; do
        rounds[$build-offers-$batch]=$(sort -n "$room/$build.offers" | sed -n "$(((RUNS + 1) / 2))p")
        echo "offers/s of $build beside 15 waiting takes, batch $batch: ${rounds[$build-offers-$batch]}"
    done
    [[ -z ${OTHER:-} ]] || echo "broker to other, these offers, batch $batch: $(ratio "broker-offers-$batch" "other-offers-$batch")"
}

measure_offers 1
measure_offers 32
