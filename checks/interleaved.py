#!/usr/bin/env python3
"""Saves 64 sets at once over four drives with the real program: their pieces come in any order, of any length, and some
of them twice. Each reply is compared with what it has to be. Then the cartridges are walked by a reader of docs/formats.md
that knows nothing of the program: each block has its digest, each stream joins from its chunks to the bytes that were
sent, no chunk is of anything else, and the sections of each record are the longest runs of its chunks. Last the room is
opened again and shows the same records. The first argument is the seed of what is random."""
import hashlib
import json
import os
import random
import re
import subprocess
import sys
import tempfile

TOP = os.path.dirname(os.path.dirname(os.path.abspath(__file__)))
SEED = int(sys.argv[1]) if len(sys.argv) > 1 else 1
SESSIONS = 64
BLOCK = 4096
# The size of the data blocks of each drive's volume, and its capacity in blocks of 4,096 bytes.
VOLUMES = [(4096, 1000), (8192, 2000), (16384, 3000), (65536, 20000)]
REPLY = re.compile(rb"HTTP/1\.1 (\d+) [^\r]*\r\nContent-Type: [^\r]*\r\nContent-Length: (\d+)\r\n\r\n")
chance = random.Random(SEED)


def fail(why):
    sys.exit("interleaved: seed %d: %s" % (SEED, why))


def number(value, width):
    return value.to_bytes(width, "big")


def sha(content):
    return hashlib.sha256(content).hexdigest()


# ---- what is asked
def request(line, body=b""):
    return b"%s HTTP/1.1\r\nContent-Length: %d\r\n\r\n%s" % (line.encode(), len(body), body)


def ask(line, **fields):
    return request(line, json.dumps(fields).encode())


def make_body(session):
    """A body of files, folders and what is gone, and how many entries it has."""
    count = chance.randrange(1, 12)
    paths = sorted({b"/s%02d/%s%05d" % (session, b"x" * chance.randrange(200), place) for place in range(count)})
    body = b""
    for path in paths:
        named = number(len(path), 2) + path
        kind = chance.choice("FFFDG")
        if kind == "F":
            content = chance.randbytes(chance.choice([0, 1, 5, 100, 4000, 8000, 30000]))
            body += b"F" + named + chance.randbytes(8) + number(len(content), 8) + content
        elif kind == "D":
            body += b"D" + named + chance.randbytes(8)
        else:
            body += b"G" + named
    return body + b"E" + number(len(paths), 8), len(paths)


class Session:
    def __init__(self, place):
        self.ssid, self.set = place + 1, "/s%02d" % place
        self.client = "alpha" if place % 3 else "beta"
        self.group = "nightly" if place % 4 == 0 else ""
        self.body, self.files = make_body(place)
        self.sent = 0
        self.is_finished = False

    def head(self):
        texts = b""
        for text in (self.client, self.set, self.group, "Default"):
            texts += number(len(text), 1) + text.encode()
        times = number(self.saved, 8) + number(self.saved + 31 * 86400, 8) + number(self.saved + 366 * 86400, 8)
        return b"H" + number(self.ssid, 8) + number(0, 8) + b"\x00" + times + texts

    def stream(self):
        return self.head() + self.body


class Script:
    """Requests, and for each a function that judges its reply."""

    def __init__(self):
        self.input, self.judges = [], []

    def add(self, asked, judge):
        self.input.append(asked)
        self.judges.append(judge)

    def says(self, asked, **fields):
        def judge(status, reply):
            return status == 200 and reply == fields

        self.add(asked, judge)

    def run(self, room):
        told = subprocess.run([PROGRAM, room, "desk"], input=b"".join(self.input), capture_output=True, timeout=600)
        if told.returncode != 0:
            fail("the program ended with %d: %s" % (told.returncode, told.stderr.decode("utf-8", "replace").strip()))
        at = 0
        for place, judge in enumerate(self.judges):
            head = REPLY.match(told.stdout, at)
            if not head:
                fail("there is no reply to request %d" % place)
            end = head.end() + int(head.group(2))
            reply = told.stdout[head.end() : end]
            if not judge(int(head.group(1)), json.loads(reply)):
                line = self.input[place].split(b"\r\n")[0].decode()
                fail("request %d, %s, is answered %s %s" % (place, line, head.group(1).decode(), reply.decode()[:500]))
            at = end
        if at != len(told.stdout):
            fail("there are more replies than requests")


def members():
    """The text of the group's members: each session that begins with it."""
    each = []
    for session in sessions:
        if session.group:
            each.append('{ client = "%s", set = "%s" }' % (session.client, session.set))
    return ", ".join(each)


def make_room(script):
    text = 'clients.alpha = { browse = "Month", retention = "Year" }\nclients.beta = { browse = "Month", retention = "Year" }\n'
    text += 'schedules.Daily = { period = "week", actions = ["incr"] }\n[groups.nightly]\nschedule = "Daily"\n'
    text += "members = [%s]\n" % members()
    script.says(request("POST /resources", text.encode()), defined=4)
    for place, (size, capacity) in enumerate(VOLUMES):
        slot = place + 1
        script.says(ask("POST /slots/%d" % slot, cart=slot))
        asked = ask("POST /label", slot=slot, pool="Default", capacity=capacity, block=size)
        script.says(asked, cart=slot, volid=slot)
        script.says(ask("POST /mount", slot=slot, drive=slot), drive=slot, volid=slot)


def begin(script, session):
    fields = {"client": session.client, "set": session.set}
    if session.group:
        fields["group"] = session.group
    else:
        fields["level"] = "full"

    def judge(status, reply):
        session.saved = reply.get("saved", 0)
        wanted = {"base": 0, "level": "full", "next": 0, "pool": "Default", "saved": session.saved, "ssid": session.ssid}
        return status == 200 and reply == wanted and session.saved > 1700000000

    script.add(ask("POST /sets", **fields), judge)


def send(script, session):
    """Sends a piece more, or one that was sent before, of a session that isn't finished; and ends it where all is sent."""
    target = "PUT /sets/%d/body/%%d" % session.ssid
    if session.sent and chance.random() < 0.1:
        start = chance.randrange(session.sent)
        end = chance.randrange(start, session.sent + 1)
        script.says(request(target % start, session.body[start:end]), next=session.sent)
    elif session.sent < len(session.body):
        end = min(session.sent + chance.choice([1, 10, 100, 1000, 5000, 40000, 131072]), len(session.body))
        script.says(request(target % session.sent, session.body[session.sent : end]), next=end)
        session.sent = end
    else:
        asked = ask("POST /sets/%d/finish" % session.ssid, length=len(session.body), sha256=sha(session.body))

        def judge(status, reply):
            wanted = {"bytes": len(session.stream()), "files": session.files, "ssid": session.ssid}
            return status == 200 and reply == wanted

        script.add(asked, judge)
        session.is_finished = True


def show(script, session):
    def judge(status, reply):
        session.record = reply
        return status == 200

    script.add(request("GET /sets/%d" % session.ssid), judge)


# ---- what stands on the cartridges
class Chunk:
    def __init__(self, volid, mark, block, ssid, copy, offset, content):
        self.volid, self.mark, self.block = volid, mark, block
        self.ssid, self.copy, self.offset, self.content = ssid, copy, offset, content


def payload_of(content, kind, place, size, volid):
    """The used bytes of the payload of a block, once it is found to be valid. Labels and marks have 4,096 bytes, whatever
    the size of the volume's data blocks is."""
    length = size if kind == b"D" else BLOCK
    block = content[place * BLOCK : place * BLOCK + length]
    form = b"\x01\x00\x00" if size == BLOCK else b"\x02" + number(size // BLOCK, 2)
    used = int.from_bytes(block[4:8], "big")
    if len(block) != length or block[:4] != kind + form or block[8:24] != number(volid, 8) + number(place, 8):
        fail("block %d of volume %d has another head" % (place, volid))
    if not 0 < used <= length - 56 or any(block[56 + used :]):
        fail("block %d of volume %d isn't padded with zeros" % (place, volid))
    if hashlib.sha256(block[:24] + block[56:]).digest() != block[24:56]:
        fail("block %d of volume %d has another digest" % (place, volid))
    return block[56 : 56 + used]


def chunks_in(payload, volid, mark, block):
    at = 0
    while at < len(payload):
        ssid, copy, offset, length = (
            int.from_bytes(payload[at + start : at + end], "big") for start, end in ((0, 8), (8, 12), (12, 20), (20, 24))
        )
        content = payload[at + 24 : at + 24 + length]
        if length == 0 or len(content) != length:
            fail("a chunk in block %d of volume %d is cut short" % (block, volid))
        yield Chunk(volid, mark, block, ssid, copy, offset, content)
        at += 24 + length


def walk(content, volid, size, capacity):
    """The chunks of a cartridge's committed files."""
    label = payload_of(content, b"L", 0, size, volid)
    if label[:8] != number(volid, 4) + number(capacity, 4) or label[16:] != b"\x07Default":
        fail("the label of volume %d has other fields" % volid)
    units, mark, found = size // BLOCK, 1, []
    while content[mark * BLOCK : mark * BLOCK + 1] == b"F":
        count = int.from_bytes(payload_of(content, b"F", mark, size, volid), "big")
        if not 1 <= count <= 64:
            fail("a mark of volume %d counts %d blocks" % (volid, count))
        for place in range(count):
            block = mark + 1 + units * place
            found += chunks_in(payload_of(content, b"D", block, size, volid), volid, mark, block)
        mark += 1 + units * count
    if len(content) != (mark + 1) * BLOCK or any(content[mark * BLOCK :]) or mark >= capacity:
        fail("volume %d doesn't end with a closed block" % volid)
    return found


def judge_stream(session, chunks):
    """The chunks of a session join to its stream, and its record tells their longest runs."""
    mine = sorted((chunk for chunk in chunks if chunk.ssid == session.ssid), key=lambda chunk: chunk.offset)
    joined, runs = b"", []
    for chunk in mine:
        if chunk.copy != 1 or chunk.offset != len(joined):
            fail("a chunk of set %d has another copy or offset" % session.ssid)
        if runs and runs[-1][:2] == [chunk.volid, chunk.mark]:
            run = runs[-1]
            run[2], run[3] = min(run[2], chunk.block), max(run[3], chunk.block)
            run[5] += len(chunk.content)
        else:
            end = len(joined) + len(chunk.content)
            runs.append([chunk.volid, chunk.mark, chunk.block, chunk.block, len(joined), end])
        joined += chunk.content
    if joined != session.stream():
        fail("the chunks of set %d join to another stream" % session.ssid)
    wanted = {
        "base": 0, "browse": session.saved + 31 * 86400, "bytes": len(joined), "changed": 0, "client": session.client,
        "copies": [{"no": 1, "sections": runs, "state": "done"}], "digest": sha(session.body), "files": session.files,
        "group": session.group, "hold": False, "level": "full", "next_copy": 2, "pool": "Default", "purged": False,
        "retain": session.saved + 366 * 86400, "saved": session.saved, "set": session.set, "ssid": session.ssid,
        "state": "complete",
    }
    if session.record != wanted:
        fail("set %d is shown as %s, and not as %s" % (session.ssid, session.record, wanted))
    return len(joined), len(runs)


if subprocess.run([os.path.join(TOP, "bin", "room"), "--version"], stdout=subprocess.DEVNULL).returncode != 0:
    fail("the program isn't there")
PROGRAM = os.path.join(TOP, "crates", "room_top", "out", "room_top")
sessions = [Session(place) for place in range(SESSIONS)]
script = Script()
make_room(script)
for session in sessions:
    begin(script, session)
open_sessions = list(sessions)
while open_sessions:
    session = chance.choice(open_sessions)
    send(script, session)
    if session.is_finished:
        open_sessions.remove(session)
for session in sessions:
    show(script, session)
with tempfile.TemporaryDirectory() as room:
    script.run(room)
    chunks = []
    for place, (size, capacity) in enumerate(VOLUMES):
        with open(os.path.join(room, "cart.%03d" % (place + 1)), "rb") as source:
            chunks += walk(source.read(), place + 1, size, capacity)
    sums = [judge_stream(session, chunks) for session in sessions]
    if {chunk.ssid for chunk in chunks} != {session.ssid for session in sessions}:
        fail("there are chunks of other sets")
    again = Script()
    for session in sessions:
        again.says(request("GET /sets/%d" % session.ssid), **session.record)
    again.run(room)
print(
    "interleaved: seed %d: %d requests; %d sets of %d bytes in %d chunks and %d sections over %d volumes, each as it was sent"
    % (SEED, len(script.input), SESSIONS, sum(one for one, _ in sums), len(chunks), sum(two for _, two in sums), len(VOLUMES))
)
