#!/usr/bin/env bash
# Measures put and get of 200 files of 257,024 bytes on one cartridge against copies, against passes of
# sha256sum over the same bytes and against the start of a process, and prints a table; and how many files of
# 64 full data blocks are committed a second, of the least and of the largest ones. It counts the reads,
# writes and syncs of single commands where strace is there, which are to be those that the design promises,
# and their instructions where valgrind is there, which don't hang on what else the machine does. It is a
# measure: only other bytes than were put, or other calls, make it fail. docs/performance.md tells what the
# figures mean.
top=$(cd "$(dirname "$0")/.." && pwd) || exit 1
work=$(mktemp -d) || exit 1
trap 'rm -rf "$work"' EXIT
fail() {
    echo "speed-put-get: $1"
    exit 1
}
"$top/bin/room" --version >/dev/null || fail "the program isn't there"
program=$top/crates/room_top/out/room_top
cd "$work" || exit 1
mkdir files copies
count=200
size=257024
rounds=3
for k in $(seq $count); do
    head -c $size /dev/urandom >"files/$k"
done
sync -f files

# What is measured, for the files from one number to another.
put_files() {
    for k in $(seq "$1" "$2"); do
        "$program" "a room" put 1 <"files/$k" >out || fail "put of file $k ended with $?"
    done
}
put_alone() {
    for k in $(seq "$1" "$2"); do
        "$program" "a room" put $((k + 1)) <"files/$k" >out || fail "put of file $k ended with $?"
    done
}
get_files() {
    for k in $(seq "$1" "$2"); do
        "$program" "a room" get 1 "$k" >"copies/$k" || fail "get of file $k ended with $?"
    done
}
get_alone() {
    for k in $(seq "$1" "$2"); do
        "$program" "a room" get 2 1 >"copies/$k" || fail "get of a single file ended with $?"
    done
}
copy_synced() {
    for k in $(seq "$1" "$2"); do
        dd if="files/$k" of="copies/$k" bs=$size conv=fsync status=none || fail "dd ended with $?"
    done
}
copy_unsynced() {
    for k in $(seq "$1" "$2"); do
        cat "files/$k" >"copies/$k" || fail "cat ended with $?"
    done
}
digest() {
    for k in $(seq "$1" "$2"); do
        sha256sum "files/$k" >out || fail "sha256sum ended with $?"
    done
}
digest_twice() {
    digest "$1" "$2"
    digest "$1" "$2"
}
digest_in_one() {
    sha256sum files/* >out || fail "sha256sum ended with $?"
}
start() {
    for k in $(seq "$1" "$2"); do
        "$program" --version >out || fail "the program ended with $?"
    done
}

# measure NAME FUNCTION FIRST LAST: the microseconds for each file, of the clock (wall) and of the processor
# (cpu), the least of all rounds.
names=()
declare -A wall cpu
TIMEFORMAT='%3R %3U %3S'
measure() {
    local real user system of_clock of_processor
    { time "$2" "$3" "$4"; } 2>measured
    read -r real user system <<<"$(tail -n 1 measured | tr -d .)"
    # Thousandths of a second, whose leading zeros are no octal numbers.
    of_clock=$((10#$real * 1000 / ($4 - $3 + 1)))
    of_processor=$(((10#$user + 10#$system) * 1000 / ($4 - $3 + 1)))
    [ -n "${wall[$1]}" ] || names+=("$1")
    [ "${wall[$1]:-$of_clock}" -lt $of_clock ] || wall[$1]=$of_clock
    [ "${cpu[$1]:-$of_processor}" -lt $of_processor ] || cpu[$1]=$of_processor
}
empty_copies() {
    rm -rf copies
    mkdir copies
}
for _ in $(seq $rounds); do
    rm -rf "a room"
    mkdir "a room"
    measure "put, behind 0 to 19 files" put_files 1 20
    put_files 21 180
    measure "put, behind 180 to 199 files" put_files 181 $count
    rm "a room/cart.001"
    measure "put, all 200" put_files 1 $count
    measure "put, each on a blank cartridge" put_alone 1 $count
    empty_copies
    measure "get, all 200" get_files 1 $count
    for k in $(seq $count); do
        cmp -s "files/$k" "copies/$k" || fail "get of file $k gives other bytes"
    done
    empty_copies
    measure "get, the only file of a cartridge" get_alone 1 $count
    empty_copies
    measure "copy with a sync (dd conv=fsync)" copy_synced 1 $count
    empty_copies
    measure "copy without a sync (cat)" copy_unsynced 1 $count
    measure "sha256sum, one pass" digest 1 $count
    measure "sha256sum, two passes" digest_twice 1 $count
    measure "sha256sum, one pass, one process" digest_in_one 1 $count
    measure "start of the program (--version)" start 1 $count
done
# ratio NAME NAME: how often the one goes into the other, by the clock and by the processor.
ratio() {
    awk -v a="${wall[$1]}" -v b="${wall[$2]}" -v c="${cpu[$1]}" -v d="${cpu[$2]}" \
        'BEGIN { printf "%7.2f %7.2f", a / b, c / d }'
}
echo "For each file of $size bytes, the least of $rounds rounds, by the clock and of the processor; put and get"
echo "are those of all $count files."
printf '%-34s %15s %15s %15s\n' "" "milliseconds" "put / this" "get / this"
printf '%-34s %7s %7s %7s %7s %7s %7s\n' "" clock proc clock proc clock proc
for name in "${names[@]}"; do
    printf '%-34s %3d.%03d %3d.%03d %s %s\n' "$name" \
        $((wall[$name] / 1000)) $((wall[$name] % 1000)) $((cpu[$name] / 1000)) $((cpu[$name] % 1000)) \
        "$(ratio "put, all 200" "$name")" "$(ratio "get, all 200" "$name")"
done

# commits UNITS: how many files of 64 full data blocks of so many units are committed a second by the clock,
# the most of all rounds, and their megabytes.
commits_program=$top/crates/speed/out/speed
commits() {
    local files=40 least= began took
    for _ in $(seq $rounds); do
        rm -rf "commits"
        mkdir "commits"
        began=$(date +%s%N)
        "$commits_program" commit commits "$1" $files || fail "speed ended with $?"
        took=$(($(date +%s%N) - began))
        [ "${least:-$took}" -lt $took ] || least=$took
    done
    awk -v units="$1" -v files=$files -v took="$least" 'BEGIN {
        second = files * 1e9 / took
        printf "%-34s %7.1f commits a second %7.1f MB a second\n",
            "64 blocks of " units * 4096 " bytes", second, second * 64 * 4096 * units / 1e6 }'
}
[ -x "$commits_program" ] || (cd "$top/crates/speed" && rt run) >/dev/null 2>&1
if [ -x "$commits_program" ]; then
    echo
    commits 1
    commits 16
else
    echo "speed-put-get: commits aren't measured, since speed can't be built"
fi

head -c 1 files/1 >byte
# instructions NAME WORD..: the instructions of a program as valgrind counts them, without those of the system.
instructions() {
    local name=$1 counted
    shift
    valgrind --tool=callgrind --callgrind-out-file=/dev/null "$@" >out 2>counts || fail "$name: ended with $?"
    counted=$(sed -n 's/.* Collected : //p' counts)
    [ -n "$counted" ] || fail "$name: no count of instructions"
    printf '%-45s %15s\n' "$name" "$counted"
}
if command -v valgrind >/dev/null; then
    echo
    printf '%-45s %15s\n' "Of one command" instructions
    instructions "put of 257,024 bytes on a blank cartridge" "$program" "a room" put 255 <files/1
    instructions "put of 257,024 bytes behind 1 file" "$program" "a room" put 255 <files/1
    instructions "get of 257,024 bytes, the only file" "$program" "a room" get 2 1
    instructions "get of 257,024 bytes, the first of 200 files" "$program" "a room" get 1 1
    instructions "sha256sum of 257,024 bytes" sha256sum files/1
    instructions "start of the program (--version)" "$program" --version
else
    echo "speed-put-get: instructions aren't counted, since valgrind isn't there"
fi

if ! command -v strace >/dev/null || ! strace -qq -o /dev/null true 2>/dev/null; then
    echo "speed-put-get: the calls aren't counted, since strace isn't there or may not trace"
    exit 0
fi
# calls NAME READS WRITES SYNCS INPUT WORD..: the program makes so many calls of each kind on the disk, and
# each read is one of a block.
calls() {
    local name=$1 promised="$2 $3 $4" input=$5 reads writes syncs
    shift 5
    strace -qq -y -o calls -e trace=pread64,pwrite64,fsync,fdatasync "$program" "a room" "$@" <"$input" >out ||
        fail "$name: ended with $?"
    reads=$(grep -c '^pread64(.*/cart\.[0-9]*>' calls)
    writes=$(grep -c '^pwrite64(' calls)
    syncs=$(grep -cE '^f(data)?sync\(' calls)
    printf '%-45s %7d %7d %7d\n' "$name" "$reads" "$writes" "$syncs"
    [ "$reads $writes $syncs" = "$promised" ] || fail "$name: promised are $promised"
    [ "$(grep '^pread64(.*/cart\.[0-9]*>' calls | grep -vc ', 4096, [0-9]*) = 4096$')" = 0 ] ||
        fail "$name: a read that isn't one of a block"
}
echo
printf '%-45s %7s %7s %7s\n' "Of one command" reads writes syncs
# A blank cartridge has nothing to read. Behind k files are read: the label, k marks, and the closed mark
# place.
calls "put of 257,024 bytes on a blank cartridge" 0 5 6 files/1 put 256
calls "put of 257,024 bytes behind 1 file" 3 2 4 files/2 put 256
calls "put of 257,024 bytes behind 200 files" 202 2 4 files/1 put 1
calls "put of 1 byte behind 201 files" 203 2 4 byte put 1
# Of n files one with d data blocks: the label, n marks, the closed mark place, and d data blocks.
calls "get of 257,024 bytes, the only file" 67 0 2 /dev/null get 2 1
calls "get of 257,024 bytes, the first of 202 files" 268 0 2 /dev/null get 1 1
calls "get of 257,024 bytes, the last but one of 202" 268 0 2 /dev/null get 1 201
calls "get of 1 byte, the last of 202 files" 205 0 2 /dev/null get 1 202
echo "speed-put-get: the calls are those promised"
