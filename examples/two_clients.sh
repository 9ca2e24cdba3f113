#!/usr/bin/env bash
# A server and two clients, with bash alone: examples/two_clients.sh [PORT], from any folder.
#
# The first client waits for a job. The second offers one that expires half a second later. It prints
# what each of them is sent, and finally what the server writes at its end.
set -euo pipefail

top=$(readlink -f -- "${BASH_SOURCE[0]}") && top=${top%/*/*}
port=${1:-7011}
broker=$top/broker
[[ -x $broker ]] || broker=rb_broker # as the package installs it

exec {server}< <("$broker" serve --port "$port" --sessions 2)
read -r line <&"$server" # "listening 127.0.0.1:PORT": from here on clients can connect
echo "server: $line"

exec {worker}<> "/dev/tcp/127.0.0.1/$port"
printf 'TAKE\nDONE 0\nQUIT\n' >&"$worker"

exec {giver}<> "/dev/tcp/127.0.0.1/$port"
printf 'OFFER 500000000 letter\nQUIT\n' >&"$giver"

sed 's/^/giver:  /' <&"$giver" # to the end of the session, when the server closes the connection
sed 's/^/worker: /' <&"$worker"
sed 's/^/server: /' <&"$server"
