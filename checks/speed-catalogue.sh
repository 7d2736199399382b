#!/usr/bin/env bash
# Measures the texts of the catalogue, both directions: a snapshot of 65,536 records with three sections each, and the
# change that completes a save set of 10,000 files. It is a measure: only a text that isn't read makes it fail.
# docs/performance.md tells what the figures mean.
top=$(cd "$(dirname "$0")/.." && pwd) || exit 1
if ! command -v python3 >/dev/null; then
    echo "speed-catalogue: skipped, since python3 isn't there"
    exit 0
fi
work=$(mktemp -d) || exit 1
trap 'rm -rf "$work"' EXIT
fail() {
    echo "speed-catalogue: $1"
    exit 1
}
program=$top/crates/speed/out/speed
[ -x "$program" ] || (cd "$top/crates/speed" && rt run) >/dev/null 2>&1
[ -x "$program" ] || fail "speed can't be built"
cd "$work" || exit 1
mkdir snapshot finished || exit 1
python3 - <<'END' || exit 1
import struct


def text(letters):
    return bytes([len(letters)]) + letters.encode()


def sections(count, each):
    found = struct.pack(">I", count)
    for place in range(count):
        found += struct.pack(">6Q", place + 1, 1, 2, 2 + each, place * each, (place + 1) * each)
    return found


def head(ssid):
    times = struct.pack(">QQQ", 1700000000, 1702678400, 1731622400)
    fields = b"H" + struct.pack(">QQB", ssid, 0, 0) + times
    return fields + text("alpha") + text("/home") + text("nightly") + text("Default")


def record(ssid):
    row = head(ssid) + bytes([0, 1, 0]) + struct.pack(">IQ", 5, 30000) + 32 * b"\x07"
    row += struct.pack(">IQ", 2, 0) + bytes([1])
    return row + struct.pack(">IB", 1, 1) + sections(3, 10000) + struct.pack(">I", 0)


def snapshot(records):
    found = b"B\x01" + struct.pack(">QQQQ", 65536, 1700000000, records + 1, 4)
    resources = [
        b"P" + text("Month") + struct.pack(">IB", 1, 2),
        b"P" + text("Year") + struct.pack(">IB", 1, 3),
        b"O" + text("Default") + bytes(8),
        b"C" + text("room") + text("Month") + text("Year"),
    ]
    found += struct.pack(">I", len(resources)) + b"".join(resources) + b"\0" + struct.pack(">I", 0)
    return found + struct.pack(">I", records) + b"".join(record(ssid + 1) for ssid in range(records))


def finished(files):
    found = struct.pack(">QBQIQ", 1700000000, 7, 1, files, 1 << 30) + 32 * b"\x07" + sections(1, 1 << 30)
    found += struct.pack(">I", files)
    for number in range(files):
        path = b"/home/alpha/documents/letters/%08d" % number
        found += b"F" + struct.pack(">H", len(path)) + path + struct.pack(">QQQ", 1700000000, 5, 96 + 5 * number)
    return found


with open("snapshot/journal.0", "wb") as file:
    file.write(snapshot(65536))
with open("finished/journal.0", "wb") as file:
    file.write(finished(10000))
END

# rate NAME FOLDER WORK TIMES: so many times more, against none.
rate() {
    local none all
    none=$({ TIMEFORMAT=%R; time "$program" "$3" "$2" 0 || echo broken; } 2>&1)
    all=$({ TIMEFORMAT=%R; time "$program" "$3" "$2" "$4" || echo broken; } 2>&1)
    case $none$all in *broken*) fail "$1 isn't read" ;; esac
    python3 -c "
import os
size = os.path.getsize('$2/journal.0')
seconds = max(float('$all') - float('$none'), 0.001)
print(f'speed-catalogue: $1: {size} bytes, {$4 * size / seconds / 1e6:.0f} MB/s')"
}
rate "reading a snapshot of 65,536 records" snapshot read 10
rate "writing it" snapshot write 40
rate "decoding a change with 10,000 entries" finished decode 200
rate "encoding it" finished encode 400
