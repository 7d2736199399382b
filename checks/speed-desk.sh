#!/usr/bin/env bash
# Measures one desk that saves 1 GiB in pieces of 131,072 bytes to a volume of 1,000,000 units, with data blocks of
# 4,096 and of 65,536 bytes, against two passes of sha256sum over the same bytes and against dd with a sync for each
# 257,024 bytes; and how many requests a second it answers in runs of 10,000: of Show, of Inventory, and of Begin and
# Abort in turn. Where strace is there it counts the system calls of a piece and of a request. It is a measure: only
# a request that isn't done makes it fail. The arguments are the MiB that are saved, the number of requests, and the
# number of rounds, of which the least counts; without them they are 1024, 10000 and 3.
top=$(cd "$(dirname "$0")/.." && pwd) || exit 1
size=${1:-1024}
count=${2:-10000}
rounds=${3:-3}
if ! command -v python3 >/dev/null; then
    echo "speed-desk: skipped, since python3 isn't there"
    exit 0
fi
work=$(mktemp -d) || exit 1
trap 'rm -rf "$work"' EXIT
fail() {
    echo "speed-desk: $1"
    exit 1
}
"$top/bin/room" --version >/dev/null || fail "the program isn't there"
program=$top/crates/room_top/out/room_top
cd "$work" || exit 1

# Writes the requests: those that make a room for each size of blocks; the save, and one of a sixteenth of it, which
# strace looks at; a small save; and those that are asked often.
python3 - "$size" "$count" <<'END' || exit 1
import hashlib
import json
import os
import sys

size, count = int(sys.argv[1]) << 20, int(sys.argv[2])
PIECE = 131072
PATH = b"/a/large/file"


def request(line, body):
    return ("%s HTTP/1.1\r\nContent-Length: %d\r\n\r\n" % (line, len(body))).encode() + body


def ask(line, **fields):
    return request(line, json.dumps(fields).encode() if fields else b"")


def write_all(name, requests):
    """A file of requests, and beside it their number."""
    written = 0
    with open(name, "wb") as file:
        for one in requests:
            file.write(one)
            written += 1
    with open(name + ".count", "w") as file:
        file.write("%d\n" % written)


def begin(number):
    return ask("POST /sets", client="alpha", set="/%d" % number, level="full")


def pieces(size):
    """The stream of one file of random bytes, in pieces."""
    front = b"F" + len(PATH).to_bytes(2, "big") + PATH + bytes(8) + size.to_bytes(8, "big")
    left = size
    while left > 0:
        taken = os.urandom(min(left, PIECE - len(front)))
        yield front + taken
        front, left = b"", left - len(taken)
    yield b"E" + (1).to_bytes(8, "big")


def save(name, size):
    """A save of set 1; its bytes alone are written beside it."""
    digest, offset = hashlib.sha256(), 0
    yield ask("POST /mount", slot=1, drive=1)
    yield begin(0)
    with open(name + ".bytes", "wb") as file:
        for piece in pieces(size):
            yield request("PUT /sets/1/body/%d" % offset, piece)
            file.write(piece)
            digest.update(piece)
            offset += len(piece)
    yield ask("POST /sets/1/finish", length=offset, sha256=digest.hexdigest())


def begins(times):
    """Set 1 is the one that was saved."""
    for ssid in range(2, 2 + times // 2):
        yield begin(ssid)
        yield ask("POST /sets/%d/abort" % ssid)


RESOURCES = b'clients.alpha = { browse = "Month", retention = "Year" }'
for block in 4096, 65536:
    made = [request("POST /resources", RESOURCES), ask("POST /slots/1", cart=1)]
    made.append(ask("POST /label", slot=1, pool="Default", capacity=1000000, block=block))
    write_all("made.%d" % block, made)
write_all("save", save("save", size))
write_all("some", save("some", size // 16))
# The record that is shown has few sections, so that its reply is short.
write_all("small", save("small", 1 << 20))
mount = [ask("POST /mount", slot=1, drive=1)]
write_all("mount", mount)
# So many for the time, and fewer for the count of calls.
for name, times in ("many", count), ("few", min(count, 200)):
    write_all("show." + name, mount + times * [ask("GET /sets/1")])
    write_all("inventory." + name, mount + times * [ask("GET /inventory")])
    write_all("begin." + name, [*mount, *begins(times)])
END

# ask ROOM FILE: answers the requests of a file.
ask() {
    "$program" "$1" desk <"$2" >replies 2>err || fail "$2: the desk ended with $?: $(cat err)"
}
# all_done FILE: each request was done.
all_done() {
    [ "$(grep -ao 'HTTP/1.1 200 OK' replies | wc -l)" = "$(cat "$1.count")" ] ||
        fail "$1: not all was done: $(grep -ao '{[^{}]*refusal[^{}]*}' replies | head -n 1)"
}
make_room() {
    rm -rf "room.$1"
    mkdir "room.$1"
    ask "room.$1" "made.$1"
    all_done "made.$1"
}
make_saved_room() {
    make_room 4096
    ask room.4096 small
    all_done small
}

# measure NAME COMMAND..: the milliseconds by the clock (wall) and of the processor (cpu), the least of all rounds.
declare -A wall cpu
TIMEFORMAT='%3R %3U %3S'
measure() {
    local name=$1 real user system of_clock of_processor
    shift
    { time "$@"; } 2>measured || fail "$name failed: $(cat measured)"
    read -r real user system <<<"$(tail -n 1 measured | tr -d .)"
    # Thousandths of a second, whose leading zeros are no octal numbers.
    of_clock=$((10#$real))
    of_processor=$((10#$user + 10#$system))
    [ "${wall[$name]:-$of_clock}" -lt $of_clock ] || wall[$name]=$of_clock
    [ "${cpu[$name]:-$of_processor}" -lt $of_processor ] || cpu[$name]=$of_processor
}
digest_twice() {
    sha256sum save.bytes >out && sha256sum save.bytes >out
}
copy_synced() {
    rm -f copy
    dd if=save.bytes of=copy bs=257024 oflag=dsync iflag=fullblock status=none
}
for _ in $(seq "$rounds"); do
    for block in 4096 65536; do
        make_room $block
        measure "desk, blocks of $block bytes" ask room.$block save
        all_done save
        rm -rf room.$block
    done
    measure "sha256sum, two passes" digest_twice
    measure "dd, a sync each 257,024 bytes" copy_synced
    rm -f copy
    make_saved_room
    for name in show inventory begin; do
        measure $name.start ask room.4096 mount
        measure $name ask room.4096 $name.many
        all_done $name.many
    done
    rm -rf room.4096
done

total=$(stat -c %s save.bytes)
echo "$total bytes saved by one desk, the least of $rounds rounds, by the clock and of the processor: seconds,"
echo "megabytes a second, and the seconds of the desk with blocks of 4,096 and of 65,536 bytes against these"
printf '%-32s %17s %17s %17s %17s\n' "" seconds "MB a second" "4096 / this" "65536 / this"
printf '%-32s %8s %8s %8s %8s %8s %8s %8s %8s\n' "" clock proc clock proc clock proc clock proc
small="desk, blocks of 4096 bytes"
large="desk, blocks of 65536 bytes"
for name in "$small" "$large" "sha256sum, two passes" "dd, a sync each 257,024 bytes"; do
    awk -v name="$name" -v size="$total" -v a="${wall[$name]}" -v b="${cpu[$name]}" \
        -v c="${wall[$small]}" -v d="${cpu[$small]}" -v e="${wall[$large]}" -v f="${cpu[$large]}" 'BEGIN {
        # What takes less than a millisecond counts as one.
        a = a < 1 ? 1 : a
        b = b < 1 ? 1 : b
        printf "%-32s %8.2f %8.2f %8.1f %8.1f %8.2f %8.2f %8.2f %8.2f\n",
            name, a / 1e3, b / 1e3, size / a / 1e3, size / b / 1e3, c / a, d / b, e / a, f / b }'
done
echo
echo "$count requests each, less the start of the program"
printf '%-32s %17s\n' "" "requests a second"
printf '%-32s %8s %8s\n' "" clock proc
rate() {
    awk -v name="$1" -v count="$count" -v a=$((wall[$2] - wall[$2.start])) -v b=$((cpu[$2] - cpu[$2.start])) 'BEGIN {
        a = a < 1 ? 1 : a
        b = b < 1 ? 1 : b
        printf "%-32s %8.0f %8.0f\n", name, count * 1e3 / a, count * 1e3 / b }'
}
rate Show show
rate Inventory inventory
rate "Begin and Abort" begin

if ! command -v strace >/dev/null || ! strace -qq -o /dev/null true 2>/dev/null; then
    echo "speed-desk: the calls aren't counted, since strace isn't there or may not trace"
    exit 0
fi
# calls ROOM FILE: sets `called` to the number of all system calls, of reads, of writes and of syncs.
calls() {
    strace -qq -f -c -o counts "$program" "$1" desk <"$2" >replies || fail "$2: the desk ended with $? under strace"
    all_done "$2"
    called=$(awk '$1 ~ /^[0-9.]+$/ && $NF != "total" {
        all += $4
        if ($NF == "read" || $NF == "pread64") reads += $4
        if ($NF == "write" || $NF == "pwrite64") writes += $4
        if ($NF == "fsync" || $NF == "fdatasync") syncs += $4
    } END { print all + 0, reads + 0, writes + 0, syncs + 0 }' counts)
}
# per_request NAME ROOM FILE: the calls of each request of the file, less those of a desk that mounts alone.
per_request() {
    local start
    calls "$2" mount
    start=$called
    calls "$2" "$3"
    awk -v name="$1" -v count=$(($(cat "$3.count") - 1)) -v start="$start" -v all="$called" 'BEGIN {
        split(start, before)
        split(all, now)
        printf "%-32s", name
        for (i = 1; i <= 4; i++) printf " %8.2f", (now[i] - before[i]) / count
        print "" }'
}
echo
echo "System calls of each request: all, reads, writes and syncs of any file"
printf '%-32s %8s %8s %8s %8s\n' "" all reads writes syncs
make_room 4096
per_request "a piece, blocks of 4096 bytes" room.4096 some
make_room 65536
per_request "a piece, blocks of 65536 bytes" room.65536 some
make_saved_room
per_request Show room.4096 show.few
per_request Inventory room.4096 inventory.few
per_request "Begin and Abort" room.4096 begin.few
