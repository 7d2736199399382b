#!/usr/bin/env bash
# Kills the real program at each of its writes and syncs in turn, on a real folder, and looks at what is
# left. A first put on a blank cartridge leaves the file whole, or none. A second put leaves the first file
# whole, and the second whole, or refused as one that isn't there. A further put then succeeds. It needs
# strace, which it doesn't install.
top=$(cd "$(dirname "$0")/.." && pwd) || exit 1
fail() {
    echo "kill-put: $1"
    exit 1
}
if ! command -v strace >/dev/null; then
    echo "kill-put: skipped, since strace isn't there"
    exit 0
fi
if ! strace -qq -o /dev/null true 2>/dev/null; then
    echo "kill-put: skipped, since strace may not trace here"
    exit 0
fi
work=$(mktemp -d) || exit 1
trap 'rm -rf "$work"' EXIT
"$top/bin/room" --version >/dev/null || fail "the program isn't there"
program=$top/crates/room_top/out/room_top
cd "$work" || exit 1
mkdir whole
head -c 9000 /dev/urandom >file.1
head -c 20000 /dev/urandom >file.2
head -c 5000 /dev/urandom >file.3
"$program" whole put 1 <file.1 >/dev/null || fail "a put that nothing stops fails"

# killed_put CALL NUMBER ROOM FILE: puts the file, and kills the program when it comes to that call. The
# status is the program's. The shell tells of each kill on standard error, which is left out.
killed_put() {
    {
        strace -qq -o /dev/null -e trace="$1" -e inject="$1":signal=KILL:when="$2" \
            "$program" "$3" put 1 <"$4" >/dev/null
    } 2>/dev/null
}
# has_file ROOM NUMBER FILE: whether the cartridge has this file. Fails unless it has it whole, or get says
# that it isn't there.
has_file() {
    local status
    "$program" "$1" get 1 "$2" >got 2>err
    status=$?
    if [ $status = 0 ]; then
        cmp -s got "$3" || fail "$1: file $2 is there and has other bytes"
        return 0
    fi
    case "$status $(cat err)" in
        "11 room: refused 2 NoSuch kind=file name=$2" | "11 room: refused 18 Unlabelled cart=1") ;;
        *) fail "$1: get of file $2 ended with $status: $(cat err)" ;;
    esac
    [ -s got ] && fail "$1: a refused get writes something"
    return 1
}
# puts_next ROOM NUMBER: a further put succeeds, as the file with this number.
puts_next() {
    "$program" "$1" put 1 <file.3 >out 2>err || fail "$1: a further put ended with $?: $(cat err)"
    [ "$(cat out)" = "kept 5000 bytes as file $2 of cart 1" ] || fail "$1: a further put printed: $(cat out)"
    has_file "$1" "$2" file.3 || fail "$1: the file of a further put isn't there"
}
# What a first put leaves: a first byte L is a label, and a first byte F of block 1 is a file, which is then
# whole.
look_at_first() {
    local cart=$1/cart.001 label mark
    label=$(head -c 1 "$cart" 2>/dev/null | tr -d '\0')
    mark=$(tail -c +4097 "$cart" 2>/dev/null | head -c 1 | tr -d '\0')
    if [ "$label" = L ] && [ "$mark" = F ]; then
        # The labels differ by the moment alone, so the files are compared behind it.
        cmp -s <(tail -c +4097 "$cart") <(tail -c +4097 whole/cart.001) || fail "$1: a file that isn't whole"
        has_file "$1" 1 file.1 || fail "$1: the file is there, and get says that it isn't"
        whole=$((whole + 1))
        puts_next "$1" 2
    else
        has_file "$1" 1 file.1 && fail "$1: a file that isn't there is read"
        puts_next "$1" 1
    fi
}
look_at_second() {
    has_file "$1" 1 file.1 || fail "$1: the first file is gone"
    if has_file "$1" 2 file.2; then
        whole=$((whole + 1))
        puts_next "$1" 3
    else
        puts_next "$1" 2
    fi
    has_file "$1" 1 file.1 || fail "$1: the first file is gone after a further put"
}
# kill_each NAME FILE LEAST: kills a put of the file at each call, and looks at what each kill leaves; there
# are to be so many kills at least.
kill_each() {
    local call number status room killed=0
    whole=0
    for call in pwrite64 fdatasync fsync; do
        for number in $(seq 1 40); do
            room="$1 put, $call $number"
            mkdir "$room"
            [ "$1" = second ] && cp whole/cart.001 "$room"
            killed_put $call "$number" "$room" "$2"
            status=$?
            "look_at_$1" "$room"
            [ $status = 0 ] && break
            killed=$((killed + 1))
        done
        [ $status = 0 ] || fail "the $1 put makes more calls of $call than are looked at"
    done
    [ $killed -ge "$3" ] || fail "only $killed kills of the $1 put, fewer than it has writes and syncs"
    told="$told; $1 put: $killed kills, whole at $whole of the runs"
}

told=""
kill_each first file.1 10
kill_each second file.2 6
echo "kill-put: each file whole or none, and the files before it whole$told"
