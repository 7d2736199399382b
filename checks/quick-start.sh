#!/usr/bin/env bash
# The quick start of the README, with a file of 200,000 random bytes: what put prints and leaves, that get
# gives back what was put, and how the program refuses. Prints one line, and exits with 1 at the first
# failure.
top=$(cd "$(dirname "$0")/.." && pwd) || exit 1
work=$(mktemp -d) || exit 1
trap 'rm -rf "$work"' EXIT
mkdir "$work/a room"
cd "$work" || exit 1
cart="a room/cart.001"
refusals=0
fail() {
    echo "quick-start: $1"
    exit 1
}
# refuses INPUT STATUS LINE WORD..: with these words the program ends with the status and the line, writes
# nothing on standard output, and leaves the cartridge as it was.
refuses() {
    local input=$1 status=$2 line=$3 ended
    shift 3
    "$top/bin/room" "$@" <"$input" >out 2>err
    ended=$?
    [ $ended = "$status" ] || fail "'$*' ended with $ended, and not with $status: $(cat err)"
    [ "$(cat err)" = "$line" ] || fail "'$*' says: $(cat err)"
    [ -s out ] && fail "'$*' is refused and writes something"
    cmp -s before "$cart" || fail "'$*' is refused and changes the cartridge"
    refusals=$((refusals + 1))
}

head -c 200000 /dev/urandom >file
"$top/bin/room" "a room" put 1 <file >out 2>err || fail "put ended with $?: $(cat err)"
[ "$(cat out)" = "kept 200000 bytes as file 1 of cart 1" ] || fail "put printed: $(cat out)"
# A label, a mark, 50 data blocks of 4,016 bytes at most, and a closed block.
[ "$(stat -c %s "$cart")" = $((53 * 4096)) ] || fail "the cartridge has another size"
# The 50 chunks of the data blocks join to the file.
for block in $(seq 2 51); do
    size=$((block < 51 ? 4016 : 200000 - 49 * 4016))
    tail -c +$((block * 4096 + 81)) "$cart" | head -c $size
done >joined
cmp -s file joined || fail "the cartridge holds other bytes"

# A second put of the same file is file 2, behind the blocks of file 1.
cp "$cart" before
"$top/bin/room" "a room" put 1 <file >out 2>err || fail "a second put ended with $?: $(cat err)"
[ "$(cat out)" = "kept 200000 bytes as file 2 of cart 1" ] || fail "a second put printed: $(cat out)"
[ "$(stat -c %s "$cart")" = $((104 * 4096)) ] || fail "the cartridge has another size after a second put"
cmp -s -n $((52 * 4096)) before "$cart" || fail "a second put changes the blocks of file 1"
cp "$cart" before
for number in 1 2; do
    "$top/bin/room" "a room" get 1 $number >got 2>err || fail "get of file $number ended with $?: $(cat err)"
    cmp -s file got || fail "get of file $number gives other bytes"
done
cmp -s before "$cart" || fail "get changes the cartridge"

: >empty
head -c 257025 /dev/zero >long
refuses empty 11 "room: refused 2 NoSuch kind=file name=3" "a room" get 1 3
refuses empty 11 "room: refused 1 Malformed field=input" "a room" put 1
refuses long 11 "room: refused 29 TooMany limit=257024" "a room" put 1
refuses empty 11 "room: refused 18 Unlabelled cart=2" "a room" get 2 1
refuses empty 11 "room: refused 1 Malformed field=input" "a room" put 2
[ -e "a room/cart.002" ] && fail "a refused command made a cartridge"
refuses file 2 "room: usage "
refuses file 2 "room: usage 0" "a room" get 1 0
refuses file 2 "room: usage 257" "a room" put 257
refuses file 6 "$(printf 'room: disk fault\nroom: no folder')" "no such room" put 1
[ -e "no such room" ] && fail "a folder was made"
refuses file 2 "room: usage pat" "no such room" pat 1

# While another program has the folder's lock: one that reads keeps out a put alone, one that writes both.
in_use=$(printf 'room: disk fault\nroom: folder in use')
exec 3<"a room"
flock -s 3 || fail "flock failed"
refuses file 6 "$in_use" "a room" put 1
"$top/bin/room" "a room" get 1 1 >got 2>err || fail "a get beside one that reads ended with $?"
cmp -s file got || fail "a get beside one that reads gives other bytes"
flock -x 3 || fail "flock failed"
refuses file 6 "$in_use" "a room" get 1 1
exec 3<&-
"$top/bin/room" --help | grep -q "usage: room FOLDER COMMAND" || fail "no help"
[ "$("$top/bin/room" --version)" = "room 0.1.0" ] || fail "no version"
echo "quick-start: 200,000 bytes kept twice and read back, and $refusals refusals as they are to be"
