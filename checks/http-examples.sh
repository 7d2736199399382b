#!/usr/bin/env bash
# Sends the requests of docs/http.md's examples, in their order, to the real program on a new folder, and compares each
# reply with the one that stands there, byte for byte but for moments, which the clock says. Each route of the document
# is to have an example. It fails with a line that says which example differs.
top=$(cd "$(dirname "$0")/.." && pwd) || exit 1
if ! command -v python3 >/dev/null; then
    echo "http-examples: skipped, since python3 isn't there"
    exit 0
fi
work=$(mktemp -d) || exit 1
trap 'rm -rf "$work"' EXIT
"$top/bin/room" --version >/dev/null || {
    echo "http-examples: the program isn't there"
    exit 1
}
python3 - "$top/crates/room_top/out/room_top" "$work" "$top/docs/http.md" <<'END'
import os
import re
import subprocess
import sys

program, work, document = sys.argv[1:]
MOMENT = re.compile(rb'"(saved|browse|retain)":(\d+)')


def fail(why):
    sys.exit("http-examples: %s" % why)


class Example:
    """A request and its reply, as bytes, with the place and the section in which they stand."""

    def __init__(self, line, section, text):
        self.target = text.split(b" HTTP/1.1", 1)[0].decode()
        self.name = "the example at line %d (%s)" % (line, self.target)
        self.section = section
        request, rest = self.message(text, True)
        if not rest.startswith(b"\n") and b"\r\nContent-Length: " in request:
            self.bad("no empty line stands behind the request's body")
        reply, rest = self.message(rest.removeprefix(b"\n"), False)
        if rest:
            self.bad("more stands behind the reply than its Content-Length says")
        self.request, self.reply = request, reply

    def bad(self, why):
        fail("%s can't be read: %s" % (self.name, why))

    def message(self, text, is_request):
        """The message at the front of a text, and what stands behind its last line."""
        head, _, rest = text.partition(b"\n\n")
        lengths = re.findall(rb"^Content-Length: (\d+)$", head, re.M)
        head = head.replace(b"\n", b"\r\n") + b"\r\n\r\n"
        if not lengths:
            if not is_request:
                self.bad("the reply has no Content-Length")
            return head, rest
        size, body, at = int(lengths[0]), bytearray(), 0
        while len(body) < size and at < len(rest):
            octet = re.compile(rb"\\x([0-9a-f]{2})").match(rest, at) if is_request else None
            body.append(int(octet[1], 16) if octet else rest[at])
            at = octet.end() if octet else at + 1
        if len(body) < size or rest[at : at + 1] != b"\n":
            self.bad("a body hasn't as many bytes as its Content-Length says")
        return head + bytes(body), rest[at + 1 :]


def read_document():
    """The examples, the routes that headings name, and those that the table has, as headings."""
    examples, routes, table, section, lines, start = [], [], [], "", [], None
    for number, line in enumerate(open(document, "rb"), 1):
        row = re.fullmatch(r"\| ([A-Z]+ `/[^`]*`) \| (`\w+`) \|\n", line.decode())
        if start is None and row:
            table.append("%s: %s" % row.groups())
        elif start is None and line.startswith(b"#"):
            section = line.decode().strip("# \n")
            if re.match(r"[A-Z]+ `/", section):
                routes.append(section)
        elif line == b"```http\n":
            lines, start = [], number
        elif line == b"```\n" and start is not None:
            examples.append(Example(start, section, b"".join(lines)))
            start = None
        else:
            lines.append(line)
    return examples, routes, table


def is_of(example, route):
    """Whether an example asks for the route of its section's heading."""
    method, target = re.match(r"([A-Z]+) `(/[^`]*)`", route).groups()
    pattern = re.sub(r"\\\{\w+\\\}", "[^/]+", re.escape("%s %s" % (method, target)))
    return example.section == route and re.fullmatch(pattern, example.target) is not None


def split_replies(out):
    """The replies that the program wrote, by the lengths that they say."""
    replies = []
    while out:
        found = re.match(rb"HTTP/1\.1 [^\r]*\r\n(?:[^\r]+\r\n)*?Content-Length: (\d+)\r\n\r\n", out)
        size = found.end() + int(found[1]) if found else len(out)
        replies.append(out[:size])
        out = out[size:]
    return replies


def without_moments(reply):
    """The reply with each moment as its number of digits and its distance from `saved`."""
    moments = dict(MOMENT.findall(reply))
    saved = int(moments.get(b"saved", 0))

    def relative(found):
        distance = int(found[2]) - saved if saved else 0
        return b'"%b":%d digits, %d from saved' % (found[1], len(found[2]), distance)

    return MOMENT.sub(relative, reply)


examples, routes, table = read_document()
if routes != table:
    fail("the table of routes and the headings differ: %s" % sorted(set(routes) ^ set(table)))
for route in routes:
    if not any(is_of(example, route) for example in examples):
        fail("%s has no example" % route)
room = os.path.join(work, "a room")
os.mkdir(room)
requests = b"".join(example.request for example in examples)
try:
    ended = subprocess.run([program, room, "desk"], input=requests, capture_output=True, timeout=60)
except subprocess.TimeoutExpired:
    fail("the program didn't end within a minute")
replies = split_replies(ended.stdout)
for example, reply in zip(examples, replies):
    if without_moments(reply) != without_moments(example.reply):
        print("http-examples: %s differs; the program replies:" % example.name)
        print(reply.decode("utf-8", "replace").replace("\r\n", "\n"))
        sys.exit(1)
if ended.returncode != 0 or len(replies) != len(examples):
    told = ended.stderr.decode("utf-8", "replace").rstrip()
    last = examples[min(len(replies), len(examples)) - 1].name
    fail("the program ended with %d behind %s: %s" % (ended.returncode, last, told))
print("http-examples: %d examples of %d routes, and each reply as it stands" % (len(examples), len(routes)))
END
