#!/usr/bin/env bash
# Measures how long it takes to open a journal of 65,536 entries of 300 bytes, and one of 200 MB whose snapshot is
# most of it, against one pass of sha256sum over the same bytes. It is a measure: only a journal that doesn't open
# makes it fail. docs/performance.md tells what the figures mean.
top=$(cd "$(dirname "$0")/.." && pwd) || exit 1
if ! command -v python3 >/dev/null; then
    echo "speed-journal: skipped, since python3 isn't there"
    exit 0
fi
work=$(mktemp -d) || exit 1
trap 'rm -rf "$work"' EXIT
fail() {
    echo "speed-journal: $1"
    exit 1
}
program=$top/crates/speed/out/speed
[ -x "$program" ] || (cd "$top/crates/speed" && rt run) >/dev/null 2>&1
[ -x "$program" ] || fail "speed can't be built"
cd "$work" || exit 1

# journal FOLDER SNAPSHOT ENTRIES SIZE: a journal with a snapshot of so many bytes, and so many entries of a size.
journal() {
    mkdir "$1"
    python3 - "$@" <<'END'
import hashlib
import struct
import sys

folder, snapshot, entries, size = sys.argv[1], *map(int, sys.argv[2:])
text = bytes(snapshot)
fields = bytes([2] + 6 * [0]) + struct.pack(">QQQ", 1, 0, snapshot)
with open(folder + "/journal.0", "wb") as file:
    file.write(b"J" + fields + hashlib.sha256(fields + text).digest() + text)
    for number in range(1, entries + 1):
        entry = struct.pack(">QI", number, size) + bytes(size)
        file.write(b"E" + entry + hashlib.sha256(entry).digest())
    file.write(b"\0")
END
}
journal entries 1000 65536 300
journal snapshot 199000000 1000 1000

# least NAME COMMAND..: the least milliseconds of three runs, by the clock and of the processor.
TIMEFORMAT='%3R %3U %3S'
least() {
    local name=$1 real user system wall= cpu=
    shift
    for _ in 1 2 3; do
        { time "$@" >out; } 2>measured || fail "$name failed"
        read -r real user system <<<"$(tail -n 1 measured | tr -d .)"
        [ "${wall:-$((10#$real))}" -lt $((10#$real)) ] || wall=$((10#$real))
        [ "${cpu:-$((10#$user + 10#$system))}" -lt $((10#$user + 10#$system)) ] || cpu=$((10#$user + 10#$system))
    done
    printf '%-45s %8d %8d\n' "$name" "$wall" "$cpu"
}
printf '%-45s %8s %8s\n' "Milliseconds" clock proc
least "open 65,536 entries of 300 bytes" "$program" open entries
least "sha256sum of the same" sha256sum entries/journal.0
least "open 200 MB" "$program" open snapshot
least "sha256sum of the same" sha256sum snapshot/journal.0
