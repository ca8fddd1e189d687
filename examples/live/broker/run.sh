#!/usr/bin/env bash
# An example, outside the gate and outside the proofs: desks with books of their own on one feed, over the broker
# mosquitto.
#
#   examples/live/broker/run.sh [TICKS]              # 1, 2 and 4 desks on 10,000 ticks, or on TICKS
#   examples/live/broker/run.sh --restart [TICKS]    # 4 desks, and the broker is ended and started again in the middle
#
# A tick is published once, under `ticks`; desk K is `mosquitto_sub -t ticks | doqs live MARKET deskK.txt |
# mosquitto_pub -l -t prices/K`. What a subscriber of all prices got from each desk is compared with what `doqs run`
# writes for the desk's log. The status is 0 where all are the same. The broker is one of this script's own, on a port
# of its own, and ends with it.
set -euo pipefail
here=$(cd "$(dirname "$0")" && pwd)
cd "$here/../../desk"
export PATH="$PATH:/usr/sbin"
export PATH="$here/../../../crates/doqs/out:$PATH" # clone
market=market.toml
port=${PORT:-18883}
for program in mosquitto mosquitto_sub mosquitto_pub "${DOQS:-doqs}"; do
    command -v "$program" > /dev/null || { echo "run.sh: there is no $program (README.md)" >&2; exit 2; }
done
work=$(mktemp -d)
broker= subscribers=()
trap 'kill $broker "${subscribers[@]}" 2> "$work/killed" || true; wait; rm -rf "$work"' EXIT

cat > "$work/broker.conf" << EOF_
listener $port 127.0.0.1
allow_anonymous true
user $(id -un)
persistence true
persistence_location $work/
max_queued_messages 0
EOF_

start_broker() {
    mosquitto -c "$work/broker.conf" >> "$work/broker.log" 2>&1 3>&- &
    broker=$!
    until mosquitto_pub -p "$port" -t started -n 2> "$work/killed"; do sleep 0.05; done
}
stop_broker() {
    kill "$broker"
    wait "$broker" || true
}

count() { wc -l < "$1"; }

# Whether the last line of the file comes to hold the word, within ten minutes.
await() {
    local till=$((SECONDS + 600))
    until [[ $(tail -n 1 "$1" 2> "$work/killed") == *$2* ]]; do
        [ $SECONDS -lt $till ] || { echo "run.sh: no $2 in $1" >&2; exit 1; }
        sleep 0.02
    done
}

# A subscriber of this name and topic, whose session outlives a break, with its messages in this file.
subscribe() {
    mosquitto_sub -p "$port" -q 1 -c -i "$1" -t "$2" -E
    mosquitto_sub -p "$port" -q 1 -c -i "$1" -t "$2" -k 3600 "${@:4}" > "$3" 2>> "$work/told" &
    subscribers+=($!)
}

# This many desks on this many ticks: the seconds from the first tick to the last price, and each desk's prices
# compared.
try() {
    local desks=$1 ticks=$2 restart=${3:-} k folder publisher pipes=() began ended differ=0
    folder=$(mktemp -d "$work/desks.XXXX")
    start_broker
    subscribers=()
    subscribe all 'prices/#' "$folder/prices" -F '%t %p'
    for k in $(seq "$desks"); do
        mkfifo "$folder/in$k"
        tee "$folder/log$k" < "$folder/in$k" | "${DOQS:-doqs}" live "$market" "$here/desk$k.txt" |
            tee "$folder/wrote$k" | mosquitto_pub -p "$port" -q 1 -l -t "prices/$k" &
        pipes+=($!)
        subscribe "desk$k" ticks "$folder/in$k"
    done
    "$here/../ticks.py" quotes.csv "$ticks" > "$folder/ticks"
    began=$(date +%s.%N)
    mkfifo "$folder/feed"
    mosquitto_pub -p "$port" -q 1 -l -t ticks < "$folder/feed" 2>> "$work/told" &
    publisher=$!
    exec 3> "$folder/feed"
    head -n $((ticks / 2)) "$folder/ticks" >&3
    [ -z "$restart" ] || { sleep 1; stop_broker; sleep 1; start_broker; sleep 1; }
    tail -n +$((ticks / 2 + 1)) "$folder/ticks" >&3 || true
    exec 3>&-
    wait "$publisher" || echo "the publisher ended with $?"
    mosquitto_pub -p "$port" -q 1 -t ticks -m '# the end'
    for k in $(seq "$desks"); do await "$folder/log$k" '# the end'; done
    kill "${subscribers[@]:1}"
    wait "${pipes[@]}"
    mosquitto_pub -p "$port" -q 1 -t prices/all -m 'the end'
    await "$folder/prices" 'the end'
    ended=$(date +%s.%N)
    kill "${subscribers[0]}"
    stop_broker
    for k in $(seq "$desks"); do
        { cat "$here/desk$k.txt"; cat "$folder/log$k"; } > "$folder/script$k"
        "${DOQS:-doqs}" run "$market" "$folder/script$k" > "$folder/run$k"
        sed -n "s|^prices/$k ||p" "$folder/prices" > "$folder/got$k"
        echo "desk $k: ticks $(count "$folder/ticks"), came $(($(count "$folder/log$k") - 1));" \
            "prices $(count "$folder/run$k"), came $(count "$folder/got$k")"
        cmp "$folder/wrote$k" "$folder/run$k" || differ=1
        # What was on its way to the broker when that ended may be lost, or come twice.
        cmp "$folder/got$k" "$folder/run$k" || [ -n "$restart" ] || differ=1
    done
    awk -v d="$desks" -v n="$ticks" -v p="$(count "$folder/prices")" -v b="$began" -v e="$ended" \
        'BEGIN { s = e - b; printf "%d desks: %.1f s, %.0f ticks a second, %.0f prices a second\n", d, s, n / s, p / s }'
    return $differ
}

if [ "${1:-}" = --restart ]; then
    try 4 "${2:-10000}" restart
    sed 's/^/the clients said: /' "$work/told"
else
    for desks in 1 2 4; do try "$desks" "${1:-10000}"; done
fi
