#!/usr/bin/env python3
"""Reads the journals that the real program writes, byte for byte, by a reader of docs/formats.md that knows nothing of the
program. Requests make every kind of change that a desk makes. The journal is read whole: its front, its snapshot and each
entry are decoded, written again from what was decoded, and are to be the same bytes; and what the changes make of a new
room is to be what the program shows. Then the journal gets the first form, and a save with a large index moves it into the
other file, so that a snapshot with records and indexes is read too."""
import hashlib
import json
import os
import re
import subprocess
import sys
import tempfile

TOP = os.path.dirname(os.path.dirname(os.path.abspath(__file__)))
REPLY = re.compile(rb"HTTP/1\.1 (\d+) [^\r]*\r\nContent-Type: [^\r]*\r\nContent-Length: (\d+)\r\n\r\n")
LAST_MOMENT = 253370764799
LEVELS = ["full", "1", "2", "3", "4", "5", "6", "7", "8", "9", "incr"]
KINDS = {"P": "policy", "O": "pool", "C": "client", "S": "schedule", "G": "group"}


def fail(why):
    sys.exit("journal_bytes: %s" % why)


def check(is_so, why):
    if not is_so:
        fail(why)


def sha(content):
    return hashlib.sha256(content).digest()


# ---- what is written: each of these puts into bytes what the reader has taken out of them
def number(value, width):
    return value.to_bytes(width, "big")


def text(value):
    return number(len(value), 1) + value


def path_text(value):
    return number(len(value), 2) + value


def listed(width, items, write):
    return number(len(items), width) + b"".join(write(item) for item in items)


def write_head(head):
    front = b"H" + number(head["ssid"], 8) + number(head["base"], 8) + number(head["level"], 1)
    times = number(head["saved"], 8) + number(head["browse"], 8) + number(head["retain"], 8)
    return front + times + b"".join(text(head[name]) for name in ("client", "set", "group", "pool"))


def write_sections(sections):
    return listed(4, sections, lambda section: b"".join(number(one, 8) for one in section))


def write_index(index):
    def write(entry):
        kind, path, mtime, size, place = entry
        return kind + path_text(path) + number(mtime, 8) + number(size, 8) + number(place, 8)

    return listed(4, index, write)


def write_resource(resource):
    kind, name, fields = resource
    out = kind.encode() + text(name)
    if kind == "P":
        return out + number(fields[0], 4) + number(fields[1], 1)
    if kind == "O":
        return out + b"".join(listed(2, names, text) for names in fields[:3]) + listed(2, fields[3], lambda level: number(level, 1))
    if kind == "C":
        return out + text(fields[0]) + text(fields[1])
    if kind == "S":
        actions = listed(1, fields[1], lambda action: number(action, 1))
        overrides = listed(1, fields[2], lambda one: number(one[0], 4) + number(one[1], 1))
        return out + number(fields[0], 1) + actions + overrides
    return out + text(fields[0]) + listed(2, fields[1], lambda member: text(member[0]) + text(member[1]))


def write_volume(volume):
    volid, cart, pool, capacity, was = volume
    return number(volid, 8) + number(cart, 4) + text(pool) + number(capacity, 4) + number(was, 8)


def write_record(record):
    out = write_head(record["head"]) + number(record["hold"], 1) + number(record["state"], 1) + number(record["purged"], 1)
    out += number(record["files"], 4) + number(record["bytes"], 8) + record["digest"]
    out += number(record["next_copy"], 4) + number(record["changed"], 8)
    out += listed(1, record["copies"], lambda copy: number(copy[0], 4) + number(copy[1], 1) + write_sections(copy[2]))
    return out + write_index(record["index"])


def write_snapshot(room):
    out = b"B\x01" + number(room["number"], 8) + number(room["moment"], 8) + number(room["ssid"], 8) + number(room["volid"], 8)
    out += listed(4, room["resources"], write_resource)
    out += listed(1, room["slots"], lambda slot: number(slot[0], 1) + number(slot[1], 4))
    return out + listed(4, room["volumes"], write_volume) + listed(4, room["records"], write_record)


def write_change(kind, fields):
    out = number(kind, 1)
    if kind == 1:
        return out + listed(4, fields, write_resource)
    if kind == 2:
        return out + fields[0].encode() + text(fields[1])
    if kind in (3, 4):
        return out + number(fields[0], 1) + (number(fields[1], 4) if kind == 3 else b"")
    if kind == 5:
        return out + write_volume(fields)
    if kind == 6:
        return out + write_head(fields)
    if kind in (8, 10):
        return out + number(fields, 8)
    if kind == 9:
        return out + number(fields[0], 8) + number(fields[1], 8) + number(fields[2], 8) + number(fields[3], 1)
    if kind == 11:
        return out + listed(4, fields, lambda ssid: number(ssid, 8))
    if kind == 14:
        return out + number(fields[0], 8) + number(fields[1], 4) + write_index(fields[2])
    ssid, files, count, digest, sections, index = fields
    out += number(ssid, 8) + number(files, 4) + number(count, 8) + digest + write_sections(sections)
    return out + (write_index(index) if kind == 7 else b"")


# ---- what is read
class Reader:
    def __init__(self, content, what):
        self.content, self.at, self.what = content, 0, what

    def take(self, width):
        check(self.at + width <= len(self.content), "%s ends early, at %d" % (self.what, self.at))
        self.at += width
        return self.content[self.at - width : self.at]

    def number(self, width):
        return int.from_bytes(self.take(width), "big")

    def within(self, width, least, most):
        value = self.number(width)
        check(least <= value <= most, "%s: %d at %d isn't from %d to %d" % (self.what, value, self.at - width, least, most))
        return value

    def moment(self):
        return self.within(8, 0, LAST_MOMENT)

    def text(self, least, most):
        value = self.take(self.within(1, least, most))
        check(all(byte >= 32 and byte != 127 for byte in value), "%s: no name at %d" % (self.what, self.at))
        value.decode("utf-8")
        return value

    def listed(self, width, read):
        return [read() for _ in range(self.number(width))]

    def end(self):
        check(self.at == len(self.content), "%s goes on behind its end, at %d" % (self.what, self.at))

    def head(self):
        check(self.take(1) == b"H", "%s: no head at %d" % (self.what, self.at))
        head = {"ssid": self.within(8, 1, 2**64 - 1), "base": self.number(8), "level": self.within(1, 0, 10)}
        check(head["base"] < head["ssid"] and (head["base"] == 0) == (head["level"] == 0), "%s: base and level" % self.what)
        for name in ("saved", "browse", "retain"):
            head[name] = self.moment()
        check(head["browse"] <= head["retain"], "%s: times" % self.what)
        for name, least, most in (("client", 1, 64), ("set", 1, 255), ("group", 0, 64), ("pool", 1, 64)):
            head[name] = self.text(least, most)
        return head

    def sections(self):
        return self.listed(4, lambda: [self.number(8) for _ in range(6)])

    def index(self):
        def entry():
            kind = self.take(1)
            check(kind in (b"F", b"D", b"G"), "%s: a kind of entry" % self.what)
            path = self.take(self.within(2, 1, 1024))
            mtime, size, place = self.number(8), self.number(8), self.number(8)
            check(kind == b"F" or size == place == 0, "%s: size and place" % self.what)
            check(kind != b"G" or mtime == 0, "%s: a time of what is gone" % self.what)
            return [kind, path, mtime, size, place]

        index = self.listed(4, entry)
        paths = [entry[1] for entry in index]
        check(paths == sorted(set(paths)), "%s: paths don't ascend" % self.what)
        return index

    def resource(self):
        kind, name = self.take(1).decode("latin-1"), self.text(1, 64)
        short = lambda: self.text(1, 64)
        if kind == "P":
            return (kind, name, (self.within(4, 1, 9999), self.within(1, 0, 3)))
        if kind == "O":
            groups, clients = self.listed(2, short), self.listed(2, short)
            sets = self.listed(2, lambda: self.text(1, 255))
            return (kind, name, (groups, clients, sets, self.listed(2, lambda: self.within(1, 0, 10))))
        if kind == "C":
            return (kind, name, (short(), short()))
        if kind == "S":
            period, actions = self.within(1, 0, 1), self.listed(1, lambda: self.within(1, 0, 11))
            overrides = self.listed(1, lambda: (self.within(4, 0, 2932531), self.within(1, 0, 11)))
            check(actions and overrides == sorted(overrides), "%s: a schedule" % self.what)
            return (kind, name, (period, actions, overrides))
        check(kind == "G", "%s: an unknown resource" % self.what)
        return (kind, name, (short(), self.listed(2, lambda: (short(), self.text(1, 255)))))

    def volume(self):
        return [self.within(8, 1, 2**64 - 1), self.within(4, 1, 256), self.text(1, 64), self.within(4, 67, 1000000), self.number(8)]

    def record(self):
        record = {"head": self.head(), "hold": self.within(1, 0, 1), "state": self.within(1, 0, 2), "purged": self.within(1, 0, 1)}
        record.update(files=self.number(4), bytes=self.number(8), digest=self.take(32), next_copy=self.number(4), changed=self.number(8))
        record["copies"] = self.listed(1, lambda: [self.within(4, 1, 2**32 - 1), self.within(1, 0, 1), self.sections()])
        record["index"] = self.index()
        return record

    def snapshot(self):
        check(self.take(2) == b"B\x01", "%s doesn't begin as one" % self.what)
        room = {"number": self.number(8), "moment": self.moment(), "ssid": self.number(8), "volid": self.number(8)}
        room["resources"] = self.listed(4, self.resource)
        room["slots"] = self.listed(1, lambda: [self.within(1, 1, 32), self.within(4, 1, 256)])
        room["volumes"] = self.listed(4, self.volume)
        room["records"] = self.listed(4, self.record)
        return room

    def change(self):
        kind = self.number(1)
        if kind == 1:
            return kind, self.listed(4, self.resource)
        if kind == 2:
            return kind, (self.take(1).decode(), self.text(1, 64))
        if kind == 3:
            return kind, (self.within(1, 1, 32), self.within(4, 1, 256))
        if kind == 4:
            return kind, (self.within(1, 1, 32),)
        if kind == 5:
            return kind, self.volume()
        if kind == 6:
            return kind, self.head()
        if kind in (8, 10):
            return kind, self.number(8)
        if kind == 9:
            return kind, (self.number(8), self.moment(), self.moment(), self.within(1, 0, 1))
        if kind == 11:
            return kind, self.listed(4, lambda: self.number(8))
        if kind == 14:
            return kind, (self.number(8), self.number(4), self.index())
        check(kind in (7, 15), "%s: an unknown kind of change, %d" % (self.what, kind))
        ended = (self.number(8), self.number(4), self.number(8), self.take(32), self.sections())
        return kind, ended + (self.index() if kind == 7 else None,)


class Room:
    """What the changes make of a snapshot."""

    def __init__(self, room):
        self.room = room
        self.parts = []

    def records(self):
        return {record["head"]["ssid"]: record for record in self.room["records"]}

    def apply(self, entry_number, moment, kind, fields):
        room, records = self.room, self.records()
        room["moment"] = max(room["moment"], moment)
        if kind == 14:
            self.parts.append(fields)
            return
        room["number"] = entry_number
        if kind == 1:
            order = {kind: place for place, kind in enumerate("POCSG")}
            room["resources"] = sorted(room["resources"] + fields, key=lambda one: (order[one[0]], one[1]))
        elif kind == 2:
            room["resources"] = [one for one in room["resources"] if one[:2] != fields]
        elif kind == 3:
            room["slots"] = sorted(room["slots"] + [list(fields)])
        elif kind == 4:
            room["slots"] = [slot for slot in room["slots"] if slot[0] != fields[0]]
        elif kind == 5:
            self.label(fields)
        elif kind == 6:
            empty = {"hold": 0, "state": 0, "purged": 0, "files": 0, "bytes": 0, "digest": bytes(32), "next_copy": 2, "changed": 0}
            room["records"].append(dict(empty, head=fields, copies=[[1, 0, []]], index=[]))
            room["ssid"] = max(room["ssid"], fields["ssid"] + 1)
        elif kind in (7, 15):
            index = fields[5] if kind == 7 else [one for part in self.parts for one in part[2]]
            if kind == 15:
                check([part[1] for part in self.parts] == list(range(len(self.parts))), "the parts aren't in their order")
                check(len(index) == fields[1] > 10000 and all(len(part[2]) == 10000 for part in self.parts[:-1]), "the parts aren't full")
            record = records[fields[0]]
            record.update(state=1, files=fields[1], bytes=fields[2], digest=fields[3], index=index)
            record["copies"] = [[1, 1, fields[4]]]
        elif kind == 8:
            records[fields]["state"] = 2
        elif kind == 9:
            record = records[fields[0]]
            record["head"].update(browse=fields[1], retain=fields[2])
            record.update(hold=fields[3], changed=entry_number)
        elif kind == 10:
            room["records"].remove(records[fields])
        elif kind == 11:
            for ssid in fields:
                records[ssid].update(purged=1, changed=entry_number, index=[])
        self.parts = []

    def label(self, volume):
        room = self.room
        old = [one[0] for one in room["volumes"] if one[1] == volume[1]]
        room["volumes"] = [one for one in room["volumes"] if one[1] != volume[1]] + [volume]
        room["volid"] = max(room["volid"], volume[0] + 1)
        kept = []
        for record in room["records"]:
            done = lambda copy: copy[1] == 1 and any(section[0] in old for section in copy[2])
            record["copies"] = [copy for copy in record["copies"] if not done(copy)]
            if record["state"] != 1 or record["copies"]:
                kept.append(record)
        room["records"] = kept

    def shown(self, record):
        head = record["head"]
        shown = {name: head[name].decode() for name in ("client", "set", "group", "pool")}
        shown.update({name: head[name] for name in ("ssid", "base", "saved", "browse", "retain")})
        shown.update({name: record[name] for name in ("files", "bytes", "next_copy", "changed")})
        shown.update(level=LEVELS[head["level"]], hold=record["hold"] == 1, purged=record["purged"] == 1)
        shown.update(digest=record["digest"].hex(), state=["begun", "complete", "aborted"][record["state"]])
        shown["copies"] = [{"no": no, "state": ["begun", "done"][state], "sections": sections} for no, state, sections in record["copies"]]
        return shown


OPENING = {
    "number": 0, "moment": 0, "ssid": 1, "volid": 1, "slots": [], "volumes": [], "records": [],
    "resources": [
        ("P", b"Month", (1, 2)), ("P", b"Year", (1, 3)), ("O", b"Default", ([], [], [], [])), ("C", b"room", (b"Month", b"Year")),
    ],
}


def plain(room):
    """A copy that is compared: bytes by their digits, tuples as lists."""
    return json.loads(json.dumps(room, default=lambda one: one.hex()))


def read_front(content, what):
    """The form, the generation, the number and the snapshot of a journal file, and where its entries begin."""
    check(content[:1] == b"J", "%s isn't open" % what)
    form, length = content[1], int.from_bytes(content[24:32], "big")
    check(form in (1, 2) and content[2:8] == bytes(6), "%s has another form" % what)
    snapshot = content[64 : 64 + length]
    check(len(snapshot) == length and sha(content[1:32] + snapshot) == content[32:64], "%s has another digest" % what)
    generation, last = int.from_bytes(content[8:16], "big"), int.from_bytes(content[16:24], "big")
    reader = Reader(snapshot, "the snapshot of %s" % what)
    room = reader.snapshot()
    reader.end()
    check(room["number"] == last, "%s has another number than its snapshot" % what)
    again = write_snapshot(room)
    fields = number(form, 1) + bytes(6) + number(generation, 8) + number(last, 8) + number(len(again), 8)
    check(b"J" + fields + sha(fields + again) + again == content[: 64 + length], "the front of %s is written otherwise" % what)
    return form, generation, room, 64 + length


def read_journal(content, what):
    """The form and the generation, the room behind the entries, and the kinds of changes."""
    form, generation, room, at = read_front(content, what)
    first = plain(room)
    room, kinds = Room(room), []
    last = room.room["number"]
    while content[at : at + 1] == b"E":
        length = int.from_bytes(content[at + 9 : at + 13], "big")
        payload = content[at + 13 : at + 13 + length]
        where = "the entry at %d of %s" % (at, what)
        reader = Reader(payload, where)
        moment = reader.moment()
        kind, fields = reader.change()
        reader.end()
        # A part has the number of the change that closes it.
        check(int.from_bytes(content[at + 1 : at + 9], "big") == last + 1, "%s has another number" % where)
        again = number(moment, 8) + write_change(kind, fields)
        whole = number(last + 1, 8) + number(len(again), 4) + again
        check(content[at : at + 45 + length] == b"E" + whole + sha(whole), "%s is written otherwise" % where)
        room.apply(last + 1, moment, kind, fields)
        last += kind != 14
        kinds.append(kind)
        at += 45 + length
    check(content[at:] == b"\x00", "%s doesn't end with a closed gate" % what)
    return form, generation, first, room, kinds


# ---- what is asked
def request(line, body=b""):
    return b"%s HTTP/1.1\r\nContent-Length: %d\r\n\r\n%s" % (line.encode(), len(body), body)


def ask(line, **fields):
    return request(line, json.dumps(fields).encode())


def desk(room, requests):
    """The status and the body of each reply."""
    told = subprocess.run([PROGRAM, room, "desk"], input=b"".join(requests), capture_output=True, timeout=120)
    check(told.returncode == 0, "the program ended with %d: %s" % (told.returncode, told.stderr.decode("utf-8", "replace").strip()))
    replies, at = [], 0
    while at < len(told.stdout):
        head = REPLY.match(told.stdout, at)
        check(head, "what is written is no reply")
        at = head.end() + int(head.group(2))
        replies.append((int(head.group(1)), json.loads(told.stdout[head.end() : at])))
    check(len(replies) == len(requests), "there are %d replies to %d requests" % (len(replies), len(requests)))
    return replies


def done(room, requests):
    for asked, (status, reply) in zip(requests, desk(room, requests)):
        check(status == 200, "%s is answered %d %s" % (asked.split(b"\r\n")[0].decode(), status, reply))


def body_of(entries):
    body = b""
    for kind, path, mtime, content in entries:
        body += kind + path_text(path)
        if kind != b"G":
            body += number(mtime, 8)
        if kind == b"F":
            body += number(len(content), 8) + content
    return body + b"E" + number(len(entries), 8)


def save(ssid, body, **fields):
    """A save in pieces of 100,000 bytes."""
    requests = [ask("POST /sets", **fields)]
    for start in range(0, len(body), 100000):
        requests.append(request("PUT /sets/%d/body/%d" % (ssid, start), body[start : start + 100000]))
    return requests + [ask("POST /sets/%d/finish" % ssid, length=len(body), sha256=sha(body).hex())]


RESOURCES = b"""
policies.Decade = { count = 10, period = "years" }
policies.Short = { count = 3, period = "days" }
pools.Copies = {}
pools.Full = { groups = ["weekly"], clients = ["alpha", "beta"], sets = ["/home", "/var"], levels = ["full", "1", "incr"] }
clients.alpha = { browse = "Month", retention = "Decade" }
clients.beta = { browse = "Short", retention = "Short" }
[schedules.Work]
period = "week"
actions = ["full", "1", "9", "incr", "skip"]
[schedules.Work.overrides]
1970-01-01 = "skip"
9998-12-31 = "full"
[schedules.Monthly]
period = "month"
actions = ["full"]
[groups.nightly]
schedule = "Monthly"
members = [{ client = "beta", set = "/home" }, { client = "alpha", set = "/" }]
[groups.empty]
schedule = "Work"
members = []
"""
SMALL = body_of([(b"F", b"/a", 7, b"hello"), (b"D", b"/b", 2**64 - 1, b""), (b"G", b"/c", 0, b""), (b"F", "/\u00e9\n".encode(), 0, b"")])
LONG = body_of([(b"F", b"/long", 1, bytes(range(256)) * 1200)])
MANY = body_of([(b"D", b"/%06d" % place, place, b"") for place in range(20001)])


def first_script():
    label = lambda slot, pool, **more: ask("POST /label", slot=slot, pool=pool, capacity=2000, **more)
    full = lambda name: {"client": "alpha", "set": name, "level": "full"}
    requests = [
        request("POST /resources", RESOURCES), request("POST /resources", b""),
        ask("POST /slots/1", cart=1), ask("POST /slots/32", cart=256), ask("POST /slots/2", cart=7),
        label(1, "Default"), label(32, "Full", block=8192), label(2, "Copies"), label(2, "Copies"),
        request("DELETE /slots/2"), ask("POST /slots/3", cart=7),
        ask("POST /mount", slot=1, drive=1), ask("POST /mount", slot=32, drive=2),
    ]
    requests += save(1, SMALL, client="alpha", set="/", group="nightly")
    requests += save(2, LONG, client="beta", set="/home", group="nightly")
    requests += save(3, SMALL, client="alpha", set="/", level="incr")
    requests += save(4, MANY, **full("/many"))
    requests += save(5, SMALL, **full("/short"))
    requests += [
        ask("POST /sets", **full("/open")), request("POST /sets/6/abort"),
        ask("POST /sets", **full("/open")), request("POST /sets/7/abort"), request("DELETE /sets/7"),
        ask("POST /sets", **full("/begun")),
        ask("POST /sets/3/amend", hold=True), ask("POST /sets/2/amend", browse=1, retain=2), ask("POST /sets/1/amend"),
        ask("POST /sets/5/amend", browse=3, retain=3), request("POST /nsrim"), request("DELETE /sets/5"),
        request("DELETE /resources/group/empty"), request("DELETE /resources/schedule/Work"),
    ]
    return requests


def compare(folder, room):
    """What the program shows is what was read."""
    room_read = room.room
    wanted = []
    for slot, cart in room_read["slots"]:
        volids = [volume[0] for volume in room_read["volumes"] if volume[1] == cart]
        wanted.append({"cart": cart, "drive": 0, "slot": slot, "volid": volids[0] if volids else 0})
    (_, inventory), = desk(folder, [request("GET /inventory")])
    check(inventory == {"slots": wanted}, "the slots are shown as %s" % inventory)
    records = room.records()
    for ssid in range(1, room_read["ssid"] + 2):
        (status, reply), = desk(folder, [request("GET /sets/%d" % ssid)])
        if ssid in records:
            shown = room.shown(records[ssid])
            check((status, reply) == (200, shown), "set %d is shown as %s, and not as %s" % (ssid, reply, shown))
        else:
            check(status == 404, "set %d is shown, and isn't in the journal" % ssid)
    tables = {"P": 'policies.%s = { count = 1, period = "days" }', "O": "pools.%s = {}", "C": 'clients.%s = { browse = "Month", retention = "Year" }'}
    tables["S"] = 'schedules.%s = { period = "week", actions = ["full"] }'
    tables["G"] = 'groups.%s = { schedule = "Monthly", members = [] }'
    for kind, name, _ in room_read["resources"]:
        (status, reply), = desk(folder, [request("POST /resources", (tables[kind] % name.decode()).encode())])
        exists = {"kind": KINDS[kind], "name": name.decode(), "no": 3, "refusal": "Exists"}
        check((status, reply) == (409, exists), "%s isn't there" % name)
    gone = [("schedule", "Work"), ("group", "empty")]
    for kind, name in gone:
        (status, _), = desk(folder, [request("DELETE /resources/%s/%s" % (kind, name))])
        check(status == 404, "%s %s is there" % (kind, name))


def read_file(folder, name):
    with open(os.path.join(folder, name), "rb") as source:
        return source.read()


def of_first_form(content):
    """A journal file of form 1 with the same snapshot and entries."""
    length = int.from_bytes(content[24:32], "big")
    fields = b"\x01" + bytes(6) + content[8:32]
    return b"J" + fields + sha(fields + content[64 : 64 + length]) + content[64:]


def run(folder):
    done(folder, first_script())
    first = read_file(folder, "journal.0")
    form, generation, opening, room, kinds = read_journal(first, "journal.0")
    check((form, generation) == (2, 1), "the first file has another form or generation")
    check(opening == plain(OPENING), "a new room's snapshot is another")
    check(set(kinds) == {1, 2, 3, 4, 5, 6, 7, 8, 9, 10, 11, 14, 15}, "kinds of changes are missing: %s" % sorted(set(kinds)))
    check(kinds.count(14) == 3, "there are %d parts" % kinds.count(14))
    compare(folder, room)
    return len(first), len(kinds)


def run_moving(folder):
    """The large set comes last, since a file of form 1 has no parts."""
    requests = first_script()
    cut = next(place for place, asked in enumerate(requests) if b"/many" in asked)
    done(folder, requests[:cut] + [ask("POST /sets/2/amend", browse=1, retain=2), request("POST /nsrim")])
    done(folder, [request("DELETE /resources/group/empty"), request("DELETE /resources/schedule/Work")])
    content = of_first_form(read_file(folder, "journal.0"))
    with open(os.path.join(folder, "journal.0"), "wb") as target:
        target.write(content)
    mounts = [ask("POST /mount", slot=1, drive=1)]
    done(folder, mounts + save(4, SMALL, client="alpha", set="/short", level="full"))
    form, generation, _, room, _ = read_journal(read_file(folder, "journal.0"), "journal.0 of the first form")
    check((form, generation) == (1, 1), "the first form isn't kept")
    check(not os.path.exists(os.path.join(folder, "journal.1")), "there is a second file already")
    compare(folder, room)
    done(folder, mounts + save(5, MANY, client="alpha", set="/many", level="full"))
    form, generation, snapshot, room, kinds = read_journal(read_file(folder, "journal.1"), "journal.1")
    check((form, generation) == (2, 2) and kinds == [14, 14, 14, 15], "the journal has moved otherwise: %s" % kinds)
    check(len(snapshot["records"]) == 5 and any(record["index"] for record in snapshot["records"]), "the snapshot has no indexes")
    form, generation, _, left, _ = read_journal(read_file(folder, "journal.0"), "journal.0 that was left")
    check((form, generation) == (1, 1), "the old file is another")
    check(plain(left.room) == snapshot, "the snapshot isn't what the old file's changes make")
    compare(folder, room)


check(subprocess.run([os.path.join(TOP, "bin", "room"), "--version"], stdout=subprocess.DEVNULL).returncode == 0, "the program isn't there")
PROGRAM = os.path.join(TOP, "crates", "room_top", "out", "room_top")
with tempfile.TemporaryDirectory() as one, tempfile.TemporaryDirectory() as other:
    length, count = run(one)
    run_moving(other)
print(
    "journal_bytes: a journal of %d bytes and %d entries is read whole and written again to the byte; what it says is what is shown; "
    "and so it is of one that moves from the first form into the other file" % (length, count)
)
