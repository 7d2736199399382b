#!/usr/bin/env bash
# Damages a cartridge of three files at 2,000 places, one byte at a time on a fresh copy, and gets each file
# with the real program. Whatever the damage, get gives the file as it was put, or refuses with status 11 and
# gives nothing. Where the damage is known to leave a file readable it is to be given, and where it is in a
# block that get reads it is to be refused. The first argument is the seed of the random places and values.
top=$(cd "$(dirname "$0")/.." && pwd) || exit 1
seed=${1:-1}
if ! command -v python3 >/dev/null; then
    echo "damaged-cartridge: skipped, since python3 isn't there"
    exit 0
fi
work=$(mktemp -d) || exit 1
trap 'rm -rf "$work"' EXIT
"$top/bin/room" --version >/dev/null || {
    echo "damaged-cartridge: the program isn't there"
    exit 1
}
python3 - "$top/crates/room_top/out/room_top" "$work" "$seed" <<'END'
import os
import random
import subprocess
import sys

program, work, seed = sys.argv[1], sys.argv[2], sys.argv[3]
BLOCK = 4096
PLACES = 2000
# The longest file has 5 data blocks; the payload of the last of each file ends in padding.
SIZES = [3, 20000, 4000]
room = os.path.join(work, "a room")
cart = os.path.join(room, "cart.001")
chance = random.Random(seed)


def fail(why):
    sys.exit("damaged-cartridge: seed %s: %s" % (seed, why))


def run(words, given):
    """The program's status, standard output and standard error."""
    try:
        ended = subprocess.run([program, room] + words, input=given, capture_output=True, timeout=60)
    except subprocess.TimeoutExpired:
        fail("'%s' didn't end within a minute" % " ".join(words))
    return ended.returncode, ended.stdout, ended.stderr.decode("utf-8", "replace").rstrip()


def place_files():
    """Puts the files, and answers their bytes and where each of their marks is."""
    files, marks, mark = [], [], 1
    for size in SIZES:
        content = bytes(chance.randrange(256) for _ in range(size))
        status, _, line = run(["put", "1"], content)
        if status != 0:
            fail("put ended with %d: %s" % (status, line))
        files.append(content)
        marks.append(mark)
        mark += 1 + (size + 4015) // 4016
    return files, marks, mark


def choose_places(blocks, used):
    """All heads and digests; some bytes of each block's payload and padding; and random others."""
    places = set()
    for block in range(blocks):
        start = block * BLOCK
        places.update(range(start, start + 56))
        end = min(56 + used[block], BLOCK)
        payload = range(start + 56, start + end)
        padding = range(start + end, start + BLOCK)
        places.update(payload[:24])
        places.update(chance.sample(payload, min(24, len(payload))))
        places.update(chance.sample(padding, min(24, len(padding))))
        places.add(start + BLOCK - 1)
    others = [place for place in range(blocks * BLOCK) if place not in places]
    places.update(chance.sample(others, PLACES - len(places)))
    return sorted(places)


def may(file, marks, end, place, value):
    """Whether the file is to be given (True), refused (False), or either (None)."""
    block, at = divmod(place, BLOCK)
    if block == 0:
        return False
    # A mark that is closed ends the files; one that is open and not valid stops the walk.
    if block == end:
        return None if at == 0 and value == ord("F") else True
    if block in marks:
        if file >= marks.index(block):
            return False
        return True if at == 0 else None
    # A data block belongs to the file whose mark is the last one before it.
    return file != max(k for k, mark in enumerate(marks) if mark < block)


os.mkdir(room)
files, marks, end = place_files()
with open(cart, "rb") as source:
    whole = source.read()
if len(whole) != (end + 1) * BLOCK:
    fail("the cartridge has another size")
used = [int.from_bytes(whole[n * BLOCK + 4 : n * BLOCK + 8], "big") for n in range(end + 1)]
given = refused = 0
for place in choose_places(end + 1, used):
    damaged = bytearray(whole)
    damaged[place] ^= chance.randrange(1, 256)
    with open(cart, "r+b") as target:
        target.write(damaged)
    told = "byte %d made 0x%02x: get of file" % (place, damaged[place])
    for k, content in enumerate(files):
        status, out, line = run(["get", "1", str(k + 1)], b"")
        is_given = status == 0 and out == content and line == ""
        is_refused = status == 11 and out == b"" and line.startswith("room: refused ")
        if not is_given and not is_refused:
            fail("%s %d ended with %d, %d bytes, and: %s" % (told, k + 1, status, len(out), line))
        expected = may(k, marks, end, place, damaged[place])
        if expected is not None and expected != is_given:
            fail("%s %d is %s" % (told, k + 1, "given" if is_given else "refused: " + line))
        given += is_given
        refused += is_refused
    with open(cart, "rb") as source:
        if source.read() != damaged:
            fail("%s changes the cartridge" % told)
print(
    "damaged-cartridge: seed %s: %d damaged places; %d gets gave the file as it was, %d were refused, "
    "and nothing else came" % (seed, PLACES, given, refused)
)
END
