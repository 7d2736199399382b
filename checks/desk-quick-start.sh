#!/usr/bin/env bash
# The README's save through the desk: runs the lines that stand there, with the real program, in a folder of its own
# that has the README and crates.txt. Each reply is to be as it should, the record too, and the cartridge is to hold
# the two files. Prints one line, and exits with 1 at the first failure.
top=$(cd "$(dirname "$0")/.." && pwd) || exit 1
work=$(mktemp -d) || exit 1
trap 'rm -rf "$work"' EXIT
fail() {
    echo "desk-quick-start: $1"
    exit 1
}
"$top/bin/room" --version >/dev/null || fail "the program isn't there"
mkdir "$work/bin" && ln -s "$top/bin/room" "$work/bin/room" && cp "$top/README.md" "$top/crates.txt" "$work" || exit 1
cd "$work" || exit 1
# The stream is made here, and so is gone with the folder.
export TMPDIR=$work
sed -n '/^## A save through the desk$/,/^## What is proved$/s/^    //p' README.md >lines
[ -s lines ] || fail "the README has no such lines"
bash -e lines >out 2>err || fail "the lines ended with $?: $(cat err)"
[ -s err ] && fail "the lines say: $(cat err)"

# reply BODY: takes the next reply, which is to have the status 200 and a body of this pattern.
at=1
count=0
reply() {
    local length body
    count=$((count + 1))
    tail -c +$at out | head -n 4 | tr -d '\r' >head
    length=$(sed -n 's/^Content-Length: //p' head)
    [ -n "$length" ] || fail "reply $count begins so: $(cat head)"
    # Each of the four lines had one byte more.
    at=$((at + $(stat -c %s head) + 4))
    body=$(tail -c +$at out | head -c "$length")
    [ ${#body} = "$length" ] || fail "reply $count is cut short"
    [ "$(head -n 2 head)" = "$(printf 'HTTP/1.1 200 OK\nContent-Type: application/json')" ] && [[ $body =~ ^$1$ ]] ||
        fail "reply $count is: $(head -n 1 head) $body"
    at=$((at + length))
}
stream=$(echo "$work"/tmp.*)
length=$(stat -c %s "$stream")
digest=$(sha256sum "$stream" | head -c 64)
# The head of the stream: 46 bytes, and alpha, /buzhtygen and Default. It is a chunk of its own.
head=68
bytes=$((head + length))
# The first data block has a chunk more, so its payload has 24 bytes less.
blocks=$((1 + (bytes - (4016 - 24) + 4015) / 4016))
reply '\{"defined":1\}'
reply '\{\}'
reply '\{"cart":1,"volid":1\}'
reply '\{"drive":1,"volid":1\}'
reply '\{"base":0,"level":"full","next":0,"pool":"Default","saved":[0-9]{10},"ssid":1\}'
reply "\{\"next\":$length\}"
reply "\{\"bytes\":$bytes,\"files\":2,\"ssid\":1\}"
section="\[1,1,2,$((blocks + 1)),0,$bytes\]"
record='\{"base":0,"browse":[0-9]{10},"bytes":'$bytes',"changed":0,"client":"alpha",'
record+='"copies":\[\{"no":1,"sections":\['$section'\],"state":"done"\}\],"digest":"'$digest'","files":2,'
record+='"group":"","hold":false,"level":"full","next_copy":2,"pool":"Default","purged":false,'
record+='"retain":[0-9]{10},"saved":[0-9]{10},"set":"/buzhtygen","ssid":1,"state":"complete"\}'
reply "$record"
[ $at = $(($(stat -c %s out) + 1)) ] || fail "more stands behind the eighth reply"

# The label, a mark, the data blocks, and a closed block.
cart=saves/cart.001
[ "$(stat -c %s $cart)" = $(((blocks + 3) * 4096)) ] || fail "the cartridge has another size"
# The first chunk is the head; those of the data blocks join to the stream.
for block in $(seq 2 $((blocks + 1))); do
    skipped=$((block == 2 ? 24 + head : 0))
    tail -c +$((block * 4096 + 56 + skipped + 24 + 1)) $cart | head -c $((4016 - skipped))
done | head -c "$length" >joined
cmp -s "$stream" joined || fail "the cartridge holds another stream"
# Before a file's bytes stand its kind, its path behind two bytes, and two numbers of eight bytes.
behind=0
for file in README.md crates.txt; do
    behind=$((behind + 1 + 2 + 1 + ${#file} + 16))
    tail -c +$((behind + 1)) joined | cmp -s -n "$(stat -c %s $file)" $file - || fail "$file isn't on the cartridge"
    behind=$((behind + $(stat -c %s $file)))
done
[ $((behind + 9)) = "$length" ] || fail "more stands behind the two files than an end"
echo "desk-quick-start: the lines of the README save two files, in $length bytes and $blocks data blocks"
