#!/usr/bin/env bash
# What earlier runs wrote is there for later ones, and what can't be read is a fault and never taken for what isn't
# there: a folder that a desk has while it waits for its input, a folder in the place of a cartridge or of a file of
# the journal, and files without the right to read or to write them. Each ends with status 6, with its line and no
# output, and leaves everything as it was. Where root runs this, the program is run as another user for the rights;
# where that can't be done, these are left out, which the line says that is printed. Exits with 1 at the first failure.
top=$(cd "$(dirname "$0")/.." && pwd) || exit 1
work=$(mktemp -d) || exit 1
trap 'chmod -R u+rwx "$work"; rm -rf "$work"' EXIT
fail() {
    echo "folder-faults: $1"
    exit 1
}
"$top/bin/room" --version >/dev/null || fail "the program isn't there"
# Another user may not reach the checkout, but this folder.
cp "$top/crates/room_top/out/room_top" "$work/program" || exit 1
chmod 755 "$work" "$work/program" && cd "$work" || exit 1
other=()
if [ "$(id -u)" = 0 ]; then
    other=(setpriv --reuid=65534 --regid=65534 --clear-groups)
fi
request() { printf '%s HTTP/1.1\r\nContent-Length: %d\r\n\r\n%s' "$1" ${#2} "$2"; }
# shows INVENTORY: a run of the desk says that these slots are full.
shows() {
    request 'GET /inventory' '' | ./program room desk >out 2>err || fail "a desk ended with $?: $(cat err)"
    [ "$(tail -c ${#1} out)" = "$1" ] || fail "a later desk shows $(tail -n 1 out), and not $1"
}

mkdir room
head -c 9000 /dev/urandom >first
head -c 70000 /dev/urandom >second
for input in first second; do
    ./program room put 7 <$input >out 2>err || fail "put of the $input file ended with $?: $(cat err)"
done
for number in 1 2; do
    ./program room get 7 $number >got$number 2>err || fail "get of file $number ended with $?: $(cat err)"
done
cmp -s first got1 && cmp -s second got2 || fail "a later run gives other bytes than were put"
one='{"cart":1,"drive":0,"slot":1,"volid":0}'
two='{"cart":2,"drive":0,"slot":2,"volid":0}'
request 'POST /slots/1' '{"cart":1}' | ./program room desk >out 2>err || fail "a first desk ended with $?: $(cat err)"
shows '{"slots":['$one']}'
request 'POST /slots/2' '{"cart":2}' | ./program room desk >out 2>err || fail "a second desk ended with $?: $(cat err)"
shows '{"slots":['$one','$two']}'

request 'GET /inventory' '' >inventory
count=0
# state: names, kinds, sizes, rights, times and bytes of all that stands in the folder.
state() {
    find room -printf '%p %y %s %m %T@\n' | sort
    find room -type f -exec sha256sum {} + 2>&1 | sort
}
# fails LINE INPUT WORD..: with these words the program says this of the folder, and changes nothing.
fails() {
    local line=$1 input=$2 ended
    shift 2
    state >before
    "${user[@]}" ./program room "$@" <"$input" >out 2>err
    ended=$?
    [ $ended = 6 ] || fail "$case: '$*' ended with $ended: $(cat err)"
    [ "$(cat err)" = "$line" ] || fail "$case: '$*' says: $(cat err)"
    [ -s out ] && fail "$case: '$*' writes something"
    state | cmp -s before - || fail "$case: '$*' changes the folder"
    count=$((count + 1))
}
fault='room: disk fault'

user=()
case="a folder that a desk has"
mkfifo requests && { ./program room desk <requests >desk_out 2>desk_err & } || exit 1
desk=$!
exec 4>requests
# Until the desk has the lock, which it keeps while it waits for its input.
for _ in $(seq 100); do
    flock -n -s room true || break
    sleep 0.1
done
fails "$(printf 'room: disk fault\nroom: folder in use')" inventory get 7 1
fails "$(printf 'room: disk fault\nroom: folder in use')" first put 7
exec 4>&-
wait $desk || fail "the desk that has the folder ended with $?: $(cat desk_err)"

case="a folder in the place of a cartridge"
mkdir room/cart.001
fails "$fault" inventory get 1 1
fails "$fault" first put 1
rmdir room/cart.001
for number in 0 1; do
    case="a folder in the place of journal.$number"
    [ -e room/journal.$number ] && mv room/journal.$number kept
    mkdir room/journal.$number
    fails "$fault" inventory desk
    rmdir room/journal.$number
    [ -e kept ] && mv kept room/journal.$number
done

note=
user=("${other[@]}")
if "${user[@]}" true 2>err; then
    # All belongs to the user for whom the program runs, so that only the rights of each file keep it out.
    [ ${#user[@]} = 0 ] || chown -R 65534:65534 room || exit 1
    case="a cartridge that can't be read"
    chmod 200 room/cart.007
    fails "$fault" inventory get 7 1
    fails "$fault" first put 7
    case="a cartridge that can't be written"
    chmod 400 room/cart.007
    fails "$fault" first put 7
    "${user[@]}" ./program room get 7 1 >got1 2>err || fail "$case: get ended with $?: $(cat err)"
    cmp -s first got1 || fail "$case: get gives other bytes"
    chmod 600 room/cart.007
    case="a journal that can't be read"
    chmod 200 room/journal.0
    fails "$fault" inventory desk
    chmod 600 room/journal.0
    case="a folder that can't be read"
    chmod 300 room
    fails "$(printf 'room: disk fault\nroom: no folder')" inventory get 7 1
    fails "$(printf 'room: disk fault\nroom: no folder')" first put 7
    chmod 700 room
    case="a folder in which nothing can be made"
    chmod 500 room
    fails "$fault" first put 1
    chmod 700 room
else
    note="; not as another user, since there is no setpriv"
fi
user=()
shows '{"slots":['$one','$two']}'
./program room get 7 2 >got2 2>err || fail "the last get ended with $?: $(cat err)"
cmp -s second got2 || fail "the last get gives other bytes"
echo "folder-faults: 2 files and 2 slots of earlier runs are there, and $count faults changed nothing$note"
