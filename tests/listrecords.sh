#!/bin/sh
# listrecords.sh COMMAND..: runs listrecords, by this command, on inputs beside document 01's example and compares all that it writes.
set -eu
[ $# -gt 0 ] || { echo 'usage: listrecords.sh COMMAND..' >&2; exit 2; }
program=$*
scratch=$(mktemp -d)
trap 'rm -rf "$scratch"' EXIT
input=$scratch/input
failed=0
: >"$input"

# An input, piece by piece: bytes as octal escapes, zeros, and whole records of a message and of a Level 3 ciphertext.
bytes() { printf "$1" >>"$input"; }
zeros() { head -c "$1" /dev/zero >>"$input"; }
messages() { for _ in $(seq "$1"); do bytes '\040\000\000\000\005\001'; zeros 32; done; }
ciphertexts() { for _ in $(seq "$1"); do bytes '\053\014\000\000\004\003'; zeros 3115; done; }

# expect NAME: the input must give the record lines on standard input; it is then emptied.
expect() {
    cat >"$scratch/lines"
    { echo records; cat "$scratch/lines"; echo "end $(wc -l <"$scratch/lines" | tr -d ' ')"; } >"$scratch/wanted"
    $program <"$input" >"$scratch/written" || true
    if ! cmp -s "$scratch/wanted" "$scratch/written"; then
        failed=$((failed + 1))
        printf "listrecords: %s: '<' wanted, '>' written\n" "$1"
        diff "$scratch/wanted" "$scratch/written" || true
    fi
    : >"$input"
}

expect 'empty' </dev/null

# A head that is cut.
for n in 1 2 3 4 5; do
    printf '\040\000\000\000\005\001' | head -c "$n" >"$input"
    echo '1 7 0 0 0' | expect "$n bytes"
done

# Every kind.
bytes '\100\000\000\000\001\001'; zeros 64
bytes '\005\006\000\000\002\001'; zeros 1541
bytes '\134\001\000\000\003\001'; zeros 348
bytes '\045\006\000\000\004\001'; zeros 1573
bytes '\040\000\000\000\005\001'; zeros 32
bytes '\040\000\000\000\006\001'; zeros 32
bytes '\100\000\000\000\001\003'; zeros 64
bytes '\013\014\000\000\002\003'; zeros 3083
bytes '\334\001\000\000\003\003'; zeros 476
bytes '\053\014\000\000\004\003'; zeros 3115
bytes '\040\000\000\000\005\003'; zeros 32
bytes '\040\000\000\000\006\003'; zeros 32
bytes '\100\000\000\000\001\005'; zeros 64
bytes '\002\024\000\000\002\005'; zeros 5122
bytes '\144\002\000\000\003\005'; zeros 612
bytes '\042\024\000\000\004\005'; zeros 5154
bytes '\040\000\000\000\005\005'; zeros 32
bytes '\040\000\000\000\006\005'; zeros 32
expect 'every kind' <<'LINES'
1 0 1 1 64
2 0 1 2 1541
3 0 1 3 348
4 0 1 4 1573
5 0 1 5 32
6 0 1 6 32
7 0 3 1 64
8 0 3 2 3083
9 0 3 3 476
10 0 3 4 3115
11 0 3 5 32
12 0 3 6 32
13 0 5 1 64
14 0 5 2 5122
15 0 5 3 612
16 0 5 4 5154
17 0 5 5 32
18 0 5 6 32
LINES

# Unknown kinds, whole and of length 0: things 0 and 7, levels 0, 2, 4 and 6; and one that is high byte first.
for kind in '\000\001' '\007\001' '\007\005' '\005\000' '\005\002' '\005\004' '\005\006' '\001\006'; do
    bytes '\000\000\000\000'; bytes "$kind"
    echo '1 8 0 0 0' | expect "kind $kind"
done

# 7 before 8, and a length counts with all four bytes.
bytes '\001\000\000\000\007\001'; echo '1 7 0 0 0' | expect 'cut, and of unknown kind'
bytes '\377\377\377\377\005\001'; zeros 32; echo '1 7 0 0 0' | expect 'a length of 2^32 - 1'
bytes '\040\000\000\001\005\001'; zeros 32; echo '1 7 0 0 0' | expect 'a length of 2^24 + 32'
bytes '\040\000\000\000\005\001'; zeros 31; echo '1 7 0 0 0' | expect 'a body without its last byte'

# A known kind with another length, other levels' included; and 8 before 9.
bytes '\037\000\000\000\005\001'; zeros 31; echo '1 9 0 0 0' | expect 'a byte too few'
bytes '\041\000\000\000\005\001'; zeros 33; echo '1 9 0 0 0' | expect 'a byte too many'
bytes '\005\006\000\000\002\003'; zeros 1541; echo '1 9 0 0 0' | expect 'the length of another level'
bytes '\013\014\000\000\002\005'; zeros 3083; echo '1 9 0 0 0' | expect "Level 3's length at Level 5"
bytes '\001\024\000\000\002\005'; zeros 5121; echo '1 9 0 0 0' | expect 'a byte too few at Level 5'
bytes '\074\001\000\000\003\001'; zeros 316; echo '1 9 0 0 0' | expect 'a private key without D'
bytes '\041\000\000\000\005\002'; zeros 33; echo '1 8 0 0 0' | expect 'an unknown kind of a wrong length'

# The first refusal ends the list.
bytes '\000\000\000\000\007\001'; messages 1; echo '1 8 0 0 0' | expect 'a record after a refusal'

# 65,536 bytes are read: 20 ciphertexts and 82 messages, exactly; more is not looked at; what runs over is cut.
all() { seq 1 20 | sed 's/$/ 0 3 4 3115/'; seq 21 102 | sed 's/$/ 0 1 5 32/'; }
ciphertexts 20; messages 82; all | expect '65,536 bytes'
ciphertexts 20; messages 83; all | expect 'a record after 65,536 bytes'
ciphertexts 21; { seq 1 20 | sed 's/$/ 0 3 4 3115/'; echo '21 7 0 0 0'; } | expect 'a record over byte 65,536'

[ "$failed" -eq 0 ] || exit 1
echo 'listrecords: all inputs give what they must'
