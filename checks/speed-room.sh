#!/usr/bin/env bash
# Measures how long a request takes in a room of very many records: 64,512 finished save sets of one small file each
# are made through the desk, and then Show, Begin and Abort are asked 1,000 times each, and Nsrim once, which purges all
# of them. The room lies in memory where there is such a folder, so that the syncs, which checks/speed-desk.sh has,
# cost nothing. It is a measure: only a request that isn't done makes it fail. The arguments are the number of records,
# which leaves room for the thousand that Begin adds, and of rounds, of which the least counts; without them they are 64512
# and 3.
top=$(cd "$(dirname "$0")/.." && pwd) || exit 1
records=${1:-64512}
rounds=${2:-3}
asked=1000
for tool in python3 faketime; do
    if ! command -v $tool >/dev/null; then
        echo "speed-room: skipped, since $tool isn't there"
        exit 0
    fi
done
[ -d /dev/shm ] && export TMPDIR=/dev/shm
work=$(mktemp -d) || exit 1
trap 'rm -rf "$work"' EXIT
fail() {
    echo "speed-room: $1"
    exit 1
}
"$top/bin/room" --version >/dev/null || fail "the program isn't there"
program=$top/crates/room_top/out/room_top
cd "$work" || exit 1

# Writes the requests: those that make the records, and those that are measured, behind a mount.
python3 - "$records" $asked <<'END' || exit 1
import hashlib
import json
import sys

records, asked = int(sys.argv[1]), int(sys.argv[2])
STREAM = b"F\0\2/a" + bytes(8) + (1).to_bytes(8, "big") + b"a" + b"E" + (1).to_bytes(8, "big")
DIGEST = hashlib.sha256(STREAM).hexdigest()


def request(line, body=b""):
    return ("%s HTTP/1.1\r\nContent-Length: %d\r\n\r\n" % (line, len(body))).encode() + body


def ask(line, **fields):
    return request(line, json.dumps(fields).encode() if fields else b"")


def write_all(name, requests):
    """A file of requests, and beside it their number."""
    with open(name, "wb") as file:
        count = sum(1 for one in requests if file.write(one))
    with open(name + ".count", "w") as file:
        file.write("%d\n" % count)


def begin():
    return ask("POST /sets", client="alpha", set="/a", level="full")


def made():
    yield request("POST /resources", b'clients.alpha = { browse = "Month", retention = "Month" }')
    yield ask("POST /slots/1", cart=1)
    yield ask("POST /label", slot=1, pool="Default", capacity=1000000)
    yield mount
    for ssid in range(1, records + 1):
        yield begin()
        yield request("PUT /sets/%d/body/0" % ssid, STREAM)
        yield ask("POST /sets/%d/finish" % ssid, length=len(STREAM), sha256=DIGEST)


def begins():
    for ssid in range(records + 1, records + 1 + asked):
        yield begin()
        yield ask("POST /sets/%d/abort" % ssid)


mount = ask("POST /mount", slot=1, drive=1)
write_all("made", made())
write_all("mount", [mount])
write_all("show", [mount] + [ask("GET /sets/%d" % (1 + i * records // asked)) for i in range(asked)])
write_all("begin", [mount, *begins()])
write_all("nsrim", [mount, request("POST /nsrim")])
END

# ask ROOM FILE: answers the requests of a file.
ask() {
    "$program" "$1" desk <"$2" >replies 2>err || fail "$2: the desk ended with $?: $(cat err)"
    [ "$(grep -ao 'HTTP/1.1 200 OK' replies | wc -l)" = "$(cat "$2.count")" ] ||
        fail "$2: not all was done: $(grep -ao '{[^{}]*refusal[^{}]*}' replies | head -n 1)"
}

# The sets are old enough to be purged today.
mkdir made.room || exit 1
faketime '2020-01-01 00:00:00' "$program" made.room desk <made >replies 2>err ||
    fail "made: the desk ended with $?: $(cat err)"
[ "$(grep -ao 'HTTP/1.1 200 OK' replies | wc -l)" = "$(cat made.count)" ] ||
    fail "made: not all was done: $(grep -ao '{[^{}]*refusal[^{}]*}' replies | head -n 1)"

# measure NAME: the milliseconds of the processor that the requests of a file take, the least of all rounds.
declare -A least
TIMEFORMAT='%3U %3S'
measure() {
    local user system taken
    rm -rf room
    cp -r made.room room || exit 1
    { time ask room "$1"; } 2>measured || fail "$1 failed: $(cat measured)"
    read -r user system <<<"$(tail -n 1 measured | tr -d .)"
    taken=$((10#$user + 10#$system))
    [ "${least[$1]:-$taken}" -lt $taken ] || least[$1]=$taken
}
for _ in $(seq "$rounds"); do
    for name in mount show begin nsrim; do
        measure $name
    done
done
[ "$(grep -ao '[0-9]\+' replies | wc -l)" -ge "$records" ] || fail "nsrim: not all sets were purged"

echo "A room of $records records, the least of $rounds rounds, of the processor"
awk -v start="${least[mount]}" -v show="${least[show]}" -v begin="${least[begin]}" -v nsrim="${least[nsrim]}" \
    -v asked=$asked 'BEGIN {
    printf "%-32s %8.0f ms\n", "start, with one mount", start
    printf "%-32s %8.4f ms\n", "Show", (show - start) / asked
    printf "%-32s %8.4f ms\n", "Begin and Abort", (begin - start) / asked
    printf "%-32s %8.0f ms\n", "Nsrim, which purges all", nsrim - start }'
