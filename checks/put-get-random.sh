#!/usr/bin/env bash
# Puts 40 files of random bytes and sizes on three cartridges with the real program, and gets them back in
# random order. Each is to be given back as it was, and each cartridge is to have as many blocks as
# docs/formats.md says. The first argument is the seed, so that a failure can be repeated; the line at the
# end, or of a failure, has it.
top=$(cd "$(dirname "$0")/.." && pwd) || exit 1
seed=${1:-1}
work=$(mktemp -d) || exit 1
trap 'rm -rf "$work"' EXIT
fail() {
    echo "put-get-random: seed $seed: $1"
    exit 1
}
[[ $seed =~ ^(0|[1-9][0-9]{0,8})$ ]] || fail "the seed is to be a number of at most nine digits"
"$top/bin/room" --version >/dev/null || fail "the program isn't there"
program=$top/crates/room_top/out/room_top
cd "$work" || exit 1
mkdir "a room"
RANDOM=$seed

# random_below LIMIT: sets `random` to a number below the limit, which is at most 2^30.
random_below() {
    random=$(((RANDOM * 32768 + RANDOM) % $1))
}
# random_file SIZE SEED: that many random bytes.
random_file() {
    LC_ALL=C awk -v size="$1" -v seed="$2" \
        'BEGIN { srand(seed); for (i = 0; i < size; i++) printf "%c", int(256 * rand()) }'
}
# shuffle WORD..: sets `shuffled` to the words in random order.
shuffle() {
    local i word
    shuffled=("$@")
    for ((i = $# - 1; i > 0; i--)); do
        random_below $((i + 1))
        word=${shuffled[i]}
        shuffled[i]=${shuffled[random]}
        shuffled[random]=$word
    done
}
# The name of a cartridge's file.
path_of() {
    printf 'a room/cart.%03d' "$1"
}
# gets CART NUMBER: the file is given back as it was.
gets() {
    "$program" "a room" get "$1" "$2" >got 2>err </dev/null ||
        fail "get of file $2 of cart $1 ended with $?: $(cat err)"
    cmp -s "put.$1.$2" got || fail "get of file $2 of cart $1 gives other bytes"
    count_gets=$((count_gets + 1))
}

# All sizes around those that fill one data block, two and all 64; and others.
sizes=(1 2 4015 4016 4017 8032 8033 253008 257023 257024)
while [ ${#sizes[@]} -lt 40 ]; do
    random_below $((RANDOM % 2 ? 257024 : 20000))
    sizes+=($((random + 1)))
done
shuffle "${sizes[@]}"
sizes=("${shuffled[@]}")
carts=(1 17 256)
files=(0 0 0)
# The label and a closed block.
blocks=(2 2 2)
all=()
count_gets=0
for i in "${!sizes[@]}"; do
    size=${sizes[i]}
    # Each cartridge gets one of the first three files, so that none stays blank.
    random_below 3
    c=$((i < 3 ? i : random))
    cart=${carts[c]}
    files[c]=$((files[c] + 1))
    random_file "$size" $((seed + i)) >"put.$cart.${files[c]}"
    [ "$(stat -c %s "put.$cart.${files[c]}")" = "$size" ] || fail "a file of $size bytes couldn't be made"
    "$program" "a room" put "$cart" <"put.$cart.${files[c]}" >out 2>err ||
        fail "put of $size bytes on cart $cart ended with $?: $(cat err)"
    [ "$(cat out)" = "kept $size bytes as file ${files[c]} of cart $cart" ] || fail "put printed: $(cat out)"
    # A mark, and a data block for each 4,016 bytes.
    blocks[c]=$((blocks[c] + 1 + (size + 4015) / 4016))
    [ "$(stat -c %s "$(path_of "$cart")")" = $((blocks[c] * 4096)) ] ||
        fail "cart $cart has another size than ${blocks[c]} blocks"
    all+=("$cart:${files[c]}")
    # One of the files that are there.
    random_below ${#all[@]}
    gets "${all[random]%:*}" "${all[random]#*:}"
done

cp -R "a room" before
shuffle "${all[@]}"
for file in "${shuffled[@]}"; do
    gets "${file%:*}" "${file#*:}"
done
for c in 0 1 2; do
    next=$((files[c] + 1))
    "$program" "a room" get "${carts[c]}" $next >got 2>err </dev/null
    [ $? = 11 ] || fail "get of file $next of cart ${carts[c]}, which isn't there, isn't refused"
    [ "$(cat err)" = "room: refused 2 NoSuch kind=file name=$next" ] || fail "get of no file says: $(cat err)"
    [ -s got ] && fail "get of file $next of cart ${carts[c]}, which isn't there, writes something"
    path=$(path_of "${carts[c]}")
    cmp -s "before/${path#*/}" "$path" || fail "gets changed cart ${carts[c]}"
done
echo "put-get-random: seed $seed: ${#all[@]} files on 3 cartridges, and $count_gets gets that give them back"
