#!/bin/sh
# benchreport.sh COMMAND..: runs benchreport, by this command, on inputs beside its stdin and compares all that it writes.
set -eu
[ $# -gt 0 ] || { echo 'usage: benchreport.sh COMMAND..' >&2; exit 2; }
program=$*
triples=$(dirname "$0")/../crates/benchreport/stdin
scratch=$(mktemp -d)
trap 'rm -rf "$scratch"' EXIT
input=$scratch/input
failed=0
: >"$input"

# Of the program's stdin the first two triples, of Levels 1 and 3, and the first of Level 5: each is decoded after 1 round, with 1, 2 and
# 1 positions replaced.
part() { tail -c "+$(($1 + 1))" "$triples" | head -c "$2" >"$scratch/$3"; }
part 0 354 private1; part 354 1547 public1; part 1901 38 message1
part 1939 482 private3; part 2421 3089 public3; part 5510 38 message3
part 33288 618 private5; part 33906 5128 public5; part 39034 38 message5

# An input, piece by piece: records by their names, bytes as octal escapes, and zeros.
records() { for name; do cat "$scratch/$name" >>"$input"; done; }
triple1() { records private1 public1 message1; }
triple3() { records private3 public3 message3; }
triple5() { records private5 public5 message5; }
bytes() { printf "$1" >>"$input"; }
zeros() { head -c "$1" /dev/zero >>"$input"; }
shorten() { head -c "-$1" "$input" >"$scratch/cut"; mv "$scratch/cut" "$input"; }

# A record with one byte changed, under another name: NAME PLACE BYTE OTHER.
changed() {
    { head -c "$2" "$scratch/$1"; printf "$3"; tail -c "+$(($2 + 2))" "$scratch/$1"; } >"$scratch/$4"
}
changed public1 1546 '\010' pad1      # the lowest pad bit
changed private1 7 '\377' key1        # the first position is above r
changed message1 4 '\002' as_public1  # a public key of a message's length
changed public5 5127 '\040' pad5      # the lowest pad bit at Level 5
changed private5 7 '\377' key5

# report ONES REPLACED [NUMBER]: so many triples, all decoded after 1 round, and a stop with the number.
report() {
    printf 'triples %s\ndecoded 0 0\ndecoded 1 %s\n' "$1" "$1"
    printf 'decoded %s 0\n' 2 3 4 5
    printf 'undecoded 0\nreplaced %s\n' "$2"
    if [ $# = 3 ]; then echo "stop $(($1 + 1)) $3"; fi
}

differ() {
    failed=$((failed + 1))
    printf "benchreport: %s: '<' wanted, '>' written\n" "$1"
    diff "$scratch/wanted" "$scratch/written" || true
}

# expect NAME ONES REPLACED [NUMBER]: the input must give this report; it is then emptied.
expect() {
    name=$1; shift
    report "$@" >"$scratch/wanted"
    $program <"$input" >"$scratch/written" || true
    cmp -s "$scratch/wanted" "$scratch/written" || differ "$name"
    : >"$input"
}

# slowly N: the input through a pipe, in pieces of N bytes that are written one by one.
slowly() { dd if="$input" bs="$1" 2>/dev/null; }

# expect_slowly NAME N ONES REPLACED [NUMBER]
expect_slowly() {
    name=$1; piece=$2; shift 2
    report "$@" >"$scratch/wanted"
    slowly "$piece" | $program >"$scratch/written" || true
    cmp -s "$scratch/wanted" "$scratch/written" || differ "$name"
    : >"$input"
}

expect 'empty' 0 0
triple1; expect 'a triple' 1 1
triple1; triple3; triple5; expect 'three levels' 3 4

# Bytes left at a triple's start are a cut record; none left is the end.
for n in 1 2 3 4 5; do
    triple1; zeros "$n"; expect "$n bytes at a triple's start" 1 1 7
    records private1; zeros "$n"; expect "$n bytes after a private key" 0 0 7
    records private3 public3; zeros "$n"; expect "$n bytes after a public key" 0 0 7
    records private5 public5; zeros "$n"; expect "$n bytes after a public key of Level 5" 0 0 7
done
records private1; expect 'nothing after a private key' 0 0 0
triple1; records private3 public3; expect 'nothing after a public key' 1 1 0

# A cut body.
triple1; shorten 1; expect 'a message without its last byte' 0 0 7
records private1 public1; shorten 1; expect 'a public key without its last byte' 0 0 7
triple3; records private3; shorten 400; expect 'a private key of a few bytes' 1 2 7

# Form: kinds that are unknown, and known ones of another length.
bytes '\000\000\000\000\007\001'; expect 'thing 7 first' 0 0 8
records private1; bytes '\000\000\000\000\002\002'; expect 'level 2' 0 0 8
records private1 public1; bytes '\000\000\000\000\005\004'; expect 'level 4' 0 0 8
records private5 public5; bytes '\000\000\000\000\005\006'; expect 'level 6' 0 0 8
records private5 public5; bytes '\000\000\000\000\005\005'; expect 'level 5, of another length' 0 0 9
bytes '\134\001\000\000\003\003'; zeros 348; expect "the other level's length" 0 0 9
records private1 as_public1 message1; expect "a message's length for a public key" 0 0 9
records private1 public1; bytes '\041\000\000\000\005\001'; zeros 33; expect 'a byte too many' 0 0 9

# Out of turn.
records public1 private1 message1; expect 'the public key first' 0 0 0
records message1; expect 'the message first' 0 0 0
records private1 message1 public1; expect 'the message second' 0 0 0
records private1 private1; expect 'two private keys' 0 0 0
records private1 public1 public1; expect 'two public keys' 0 0 0
records private1 public1 private1; expect 'the next triple after a public key' 0 0 0
bytes '\100\000\000\000\001\001'; zeros 64; expect 'a seed' 0 0 0
records private1; bytes '\045\006\000\000\004\001'; zeros 1573; expect 'a ciphertext' 0 0 0
records private1 public1; bytes '\040\000\000\000\006\001'; zeros 32; expect 'a session key' 0 0 0

# Of mixed levels.
records private1 public3 message1; expect "the second record of another level" 0 0 0
records private3 public3 message1; expect "the third record of another level" 0 0 0
records private5 public3 message5; expect "the second record of Level 3" 0 0 0
records private1 public1 message5; expect "the third record of Level 5" 0 0 0
triple1; records private3 public1; expect "of another level after a triple" 1 1 0

# One record after the other, and a record's form before its turn.
records message1; bytes '\000\000\000\000\007\001'; expect 'an unknown kind after a message' 0 0 0
bytes '\000\000\000\000\007\001'; records message1; expect 'an unknown kind before a message' 0 0 8
records private1; bytes '\040\000\000\000\005\001'; zeros 31; expect 'a message out of turn, and cut' 0 0 7
records private1; bytes '\037\000\000\000\005\001'; zeros 31; expect 'a message out of turn, and short' 0 0 9

# Contents, once the triple is whole.
records private1 pad1 message1; expect 'a pad bit' 0 0 3
records key1 public1 message1; expect 'a bad position' 0 0 4
records key1 pad1 message1; expect 'a pad bit and a bad position' 0 0 3
records private5 pad5 message5; expect 'a pad bit at Level 5' 0 0 3
records key5 public5 message5; expect 'a bad position at Level 5' 0 0 4
records key1; expect 'a bad position, and nothing else' 0 0 0
records key1 public1 message3; expect 'a bad position, and a message of another level' 0 0 0
records private1 pad1 message1; shorten 1; expect 'a pad bit in a cut triple' 0 0 7

# Lengths beyond all that is known, with their bytes and without.
bytes '\200\226\230\000\007\001'; zeros 10000000; expect '10,000,000 bytes of an unknown kind' 0 0 8
bytes '\200\226\230\000\007\001'; zeros 9999999; expect 'the same without the last' 0 0 7
records private1; bytes '\200\226\230\000\005\001'; zeros 10000000; expect 'a message of 10,000,000 bytes' 0 0 9
records private1; bytes '\200\226\230\000\005\001'; zeros 20000; expect 'the same with 20,000' 0 0 7
triple1; bytes '\377\377\377\377\005\001'; zeros 70000; expect 'a length of 2^32 - 1' 1 1 7
bytes '\372\077\000\000\007\001'; zeros 16378; expect '16,384 bytes of an unknown kind' 0 0 8
bytes '\373\077\000\000\007\001'; zeros 16378; expect 'one byte fewer than stated' 0 0 7
bytes '\373\077\000\000\007\001'; zeros 16379; triple1; expect '16,385 bytes, and a triple' 0 0 8

# Nothing is counted after a stop.
records message1; triple1; expect 'a triple after a stop' 0 0 0
triple1; bytes '\000\000\000\000\007\001'; triple3; expect 'triples round a stop' 1 1 8

# More than the program holds at once; and reads of any size.
for _ in $(seq 15); do triple1; triple3; triple5; done; expect '45 triples' 45 60
for n in 1 5000; do
    triple1; triple3; expect_slowly "two triples, $n at a time" "$n" 2 3
    triple1; records private3 public3; expect_slowly "nothing after a public key, $n at a time" "$n" 1 1 0
    triple1; zeros 5; expect_slowly "5 bytes at a triple's start, $n at a time" "$n" 1 1 7
    bytes '\120\303\000\000\007\001'; zeros 50000; expect_slowly "an over-long record, $n at a time" "$n" 0 0 8
    records key1 pad1 message1; expect_slowly "bad contents, $n at a time" "$n" 0 0 3
done
for _ in $(seq 15); do triple1; triple3; triple5; done; expect_slowly '45 triples, 5,000 at a time' 5000 45 60

[ "$failed" -eq 0 ] || exit 1
echo 'benchreport: all inputs give what they must'
