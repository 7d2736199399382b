#!/usr/bin/env bash
# Kills the real program at each of its writes, cuts and syncs in turn, its replies among them, while it answers a
# script of requests on a real folder, and looks at what is left. Opened again, the catalogue (by Show, Inventory and
# Savegrp) is the one behind the requests whose replies came, or behind one request more, which enters at most two
# changes; each save set that it calls complete is on the cartridges, with its digest; and the program goes on with a
# whole save. It needs python3, and strace, which it doesn't install.
top=$(cd "$(dirname "$0")/.." && pwd) || exit 1
for needed in strace python3; do
    if ! command -v $needed >/dev/null; then
        echo "kill-desk: skipped, since $needed isn't there"
        exit 0
    fi
done
if ! strace -qq -o /dev/null true 2>/dev/null; then
    echo "kill-desk: skipped, since strace may not trace here"
    exit 0
fi
work=$(mktemp -d) || exit 1
trap 'rm -rf "$work"' EXIT
"$top/bin/room" --version >/dev/null || {
    echo "kill-desk: the program isn't there"
    exit 1
}
python3 - "$top/crates/room_top/out/room_top" "$work" <<'END'
import hashlib
import json
import os
import re
import shutil
import subprocess
import sys

program, work = sys.argv[1:]
CALLS = ["pwrite64", "fdatasync", "fsync", "ftruncate", "write"]
# What strace ends with where the program was killed.
KILLED = -9
BLOCK = 4096
REPLY = re.compile(rb"HTTP/1\.1 (\d+) [^\r]*\r\n(?:[^\r]+\r\n)*?Content-Length: (\d+)\r\n\r\n")
# Moments are those of the clock, so they differ from run to run.
MOMENT = re.compile(r'"(saved|browse|retain)":\d+')


def fail(why):
    sys.exit("kill-desk: %s" % why)


def request(line, body=b""):
    head = "%s HTTP/1.1\r\nContent-Length: %d\r\n\r\n" % (line, len(body))
    return head.encode() + body


def ask(line, **fields):
    return request(line, json.dumps(fields).encode() if fields else b"")


def stream(name, size):
    """A stream of one file, behind its head."""
    path = b"/home/" + name
    content = hashlib.shake_128(name).digest(size)
    fields = b"F" + len(path).to_bytes(2, "big") + path + bytes(8) + size.to_bytes(8, "big")
    return fields + content + b"E" + (1).to_bytes(8, "big")


def third(ssid, body, number):
    """One of three pieces of a stream."""
    start, end = number * len(body) // 3, (number + 1) * len(body) // 3
    return request("PUT /sets/%d/body/%d" % (ssid, start), body[start:end])


def whole(ssid, body):
    return request("PUT /sets/%d/body/0" % ssid, body)


def finish(ssid, body):
    return ask("POST /sets/%d/finish" % ssid, length=len(body), sha256=hashlib.sha256(body).hexdigest())


RESOURCES = b"""
pools.Copies = {}
clients.alpha = { browse = "Month", retention = "Year" }
clients.beta = { browse = "Month", retention = "Year" }
schedules.Daily = { period = "week", actions = ["incr"] }
[groups.nightly]
schedule = "Daily"
members = [{ client = "alpha", set = "/home" }, { client = "beta", set = "/home" }]
"""
# A buffer has room for 257,024 bytes, so the fifth piece of both has it committed.
ALPHA, BETA, LATER = stream(b"alpha", 180000), stream(b"beta", 130000), stream(b"later", 5000)
SCRIPT = [
    request("POST /resources", RESOURCES),
    ask("POST /slots/1", cart=1),
    ask("POST /slots/2", cart=2),
    ask("POST /label", slot=1, pool="Default", capacity=1000),
    ask("POST /mount", slot=1, drive=1),
    ask("POST /sets", client="alpha", set="/home", group="nightly"),
    ask("POST /sets", client="beta", set="/home", group="nightly", level="full"),
    third(1, ALPHA, 0),
    third(2, BETA, 0),
    third(1, ALPHA, 1),
    third(2, BETA, 1),
    third(1, ALPHA, 2),
    finish(1, ALPHA),
    ask("POST /label", slot=2, pool="Copies", capacity=1000, block=8192),
    third(2, BETA, 2),
    ask("POST /mount", slot=2, drive=2),
    finish(2, BETA),
    ask("POST /sets/1/amend", hold=True),
    ask("POST /sets", client="alpha", set="/home", group="nightly"),
    third(3, LATER, 0),
    ask("POST /sets/3/abort"),
    ask("POST /unmount", drive=2),
    ask("POST /label", slot=2, pool="Copies", capacity=1000),
    ask("POST /sets/2/amend", browse=1, retain=1),
    ask("POST /nsrim"),
    ask("DELETE /sets/3"),
    ask("DELETE /resources/pool/Copies"),
    ask("DELETE /slots/2"),
    ask("POST /sets", client="beta", set="/home", group="nightly"),
    whole(4, LATER),
    finish(4, LATER),
    ask("POST /unmount", drive=1),
    ask("GET /sets/4"),
]
# One of them is refused: the pool has a volume.
REFUSED = 26
BEGINS = [line.startswith(b"POST /sets HTTP") for line in SCRIPT]
PROBE = [ask("GET /sets/%d" % ssid) for ssid in range(1, 6)]
PROBE += [ask("GET /inventory"), ask("GET /savegrp/nightly")]


def split_replies(out):
    """The status and the body of each whole reply."""
    replies = []
    while found := REPLY.match(out):
        end = found.end() + int(found[2])
        if end > len(out):
            break
        replies.append((int(found[1]), out[found.end() : end].decode()))
        out = out[end:]
    return replies


def desk(room, requests, before=()):
    """The replies to requests, and the program's status."""
    words = [*before, program, room, "desk"]
    try:
        ended = subprocess.run(words, input=b"".join(requests), capture_output=True, timeout=60)
    except subprocess.TimeoutExpired:
        fail("%s: the program didn't end within a minute" % room)
    return split_replies(ended.stdout), ended.returncode, ended.stderr.decode("utf-8", "replace").rstrip()


def probe(room):
    """The catalogue, as the program says it when it is opened again."""
    replies, status, told = desk(room, PROBE)
    if status != 0 or len(replies) != len(PROBE):
        fail("%s: opened again the program ended with %d: %s" % (room, status, told))
    return replies


def catalogue(replies):
    return [(status, MOMENT.sub(r'"\1":0', body)) for status, body in replies]


def chunks_in(block):
    """The chunks of a data block: save set, offset and bytes."""
    used, at = int.from_bytes(block[4:8], "big"), 56
    while at < 56 + used:
        ssid, offset = (int.from_bytes(block[at + i : at + i + 8], "big") for i in (0, 12))
        length = int.from_bytes(block[at + 20 : at + 24], "big")
        yield ssid, offset, block[at + 24 : at + 24 + length]
        at += 24 + length


def look_at_sets(room, replies):
    """Each complete save set is on the cartridges, with its digest."""
    carts = {}
    for name in os.listdir(room):
        if name.startswith("cart."):
            with open(os.path.join(room, name), "rb") as file:
                content = file.read()
            carts[int.from_bytes(content[8:16], "big")] = content
    for status, body in replies[:5]:
        row = json.loads(body)
        if status != 200 or row["state"] != "complete":
            continue
        found = {}
        for volid, mark, first, last, _, _ in row["copies"][0]["sections"]:
            content = carts[volid]
            size = max(1, int.from_bytes(content[2:4], "big"))
            if content[mark * BLOCK] != ord("F"):
                fail("%s: set %d lies behind a closed mark" % (room, row["ssid"]))
            for number in range(first, last + 1, size):
                for ssid, offset, piece in chunks_in(content[number * BLOCK : (number + size) * BLOCK]):
                    if ssid == row["ssid"]:
                        found[offset] = piece
        text = b"".join(found[offset] for offset in sorted(found))
        head = 46 + sum(len(row[name]) for name in ("client", "set", "group", "pool"))
        if len(text) != row["bytes"] or hashlib.sha256(text[head:]).hexdigest() != row["digest"]:
            fail("%s: set %d isn't on the cartridges as its record says" % (room, row["ssid"]))


def go_on(room, ssid):
    """A whole save more, of a new client to a new cartridge, whose set has this number."""
    further = [
        request("POST /resources", b'clients.later = { browse = "Month", retention = "Year" }'),
        ask("POST /slots/9", cart=9),
        ask("POST /label", slot=9, pool="Default", capacity=1000),
        ask("POST /mount", slot=9, drive=4),
        ask("POST /sets", client="later", set="/home", level="full"),
        whole(ssid, LATER),
        finish(ssid, LATER),
    ]
    replies, status, told = desk(room, further)
    if status != 0 or [status for status, _ in replies] != 7 * [200]:
        fail("%s: a further save ended with %d: %s %s" % (room, status, replies[-1:], told))


os.chdir(work)
# What the catalogue is behind each number of requests, and the next save set's number.
behind = []
for count in range(len(SCRIPT) + 1):
    room = "the first %d requests" % count
    os.mkdir(room)
    replies, status, told = desk(room, SCRIPT[:count])
    refused = [place for place, (status, _) in enumerate(replies) if status != 200]
    if status != 0 or len(replies) != count or refused != [REFUSED][: int(count > REFUSED)]:
        fail("%s ended with %d: %s %s" % (room, status, replies[-1:], told))
    behind.append((catalogue(probe(room)), 1 + sum(BEGINS[:count])))
    shutil.rmtree(room)
kills, one_more = {}, 0
for call in CALLS:
    kills[call] = 0
    while True:
        number = kills[call] + 1
        room = "killed at %s %d" % (call, number)
        os.mkdir(room)
        injected = "%s:signal=KILL:when=%d" % (call, number)
        strace = ["strace", "-qq", "-o", "/dev/null", "-e", "trace=" + call, "-e", "inject=" + injected]
        replies, status, told = desk(room, SCRIPT, strace)
        if status == 0:
            shutil.rmtree(room)
            break
        if status != KILLED:
            fail("%s: the program ended with %d: %s" % (room, status, told))
        kills[call] += 1
        found = probe(room)
        acknowledged = len(replies)
        states = [count for count in (acknowledged, acknowledged + 1) if count <= len(SCRIPT)]
        fitting = [count for count in states if behind[count][0] == catalogue(found)]
        if not fitting:
            fail("%s: %d replies came, and the catalogue is %s" % (room, acknowledged, found))
        one_more += fitting[0] != acknowledged
        look_at_sets(room, found)
        go_on(room, behind[fitting[0]][1])
        shutil.rmtree(room)
if sum(kills.values()) < 100:
    fail("only %s kills, fewer than the script has calls" % kills)
print(
    "kill-desk: %d kills in %d requests (%s), each catalogue as answered or one request further (%d of them)"
    % (sum(kills.values()), len(SCRIPT), ", ".join("%s %d" % one for one in kills.items()), one_more)
)
END
