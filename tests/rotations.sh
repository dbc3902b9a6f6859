#!/bin/bash
# rotations.sh COMMAND..: runs the program cases, by this command, on a key that is rotated in a chain: rotations add up
# and lead back, and each rotated key opens good and damaged ciphertexts to the session keys that the key opens them to.
set -euo pipefail
[ $# -gt 0 ] || { echo 'usage: rotations.sh COMMAND..' >&2; exit 2; }
program=("$@")
failed=0

# A number in 4 bytes, little-endian, and a buffer with its length before it; all in hex.
number() { local b; printf -v b %08x "$1"; printf %s "${b:6:2}${b:4:2}${b:2:2}${b:0:2}"; }
buffer() { number $((${#1} / 2)); printf %s "$1"; }

# answer N HEX: the Nth field of the line that answers the one case.
answer() { printf "$(sed 's/../\\x&/g' <<<"$2")" | "${program[@]}" | sed -n 1p | cut -d' ' -f"$1"; }

make() { answer "$1" "07$(number $level)$(buffer "$seed")$(number $public)$(number $private)"; }
wrap() { answer "$1" "08$(number $level)$(buffer "$h")$(buffer "$message")$(number $ciphertext)$(number 32)"; }
open() { answer 4 "09$(number $level)$(buffer "$1")$(buffer "$2")$(number 32)"; }
rotate() { answer 4 "11$(number $level)$(number "$2")$(buffer "$1")$(number $private)"; }

# same WHAT A B
same() { [ "$2" = "$3" ] || { failed=$((failed + 1)); echo "rotations: level $level: $1"; }; }

# Another digit at this place of a text.
changed() { local digit=0; [ "${1:$2:1}" != 0 ] || digit=1; printf %s "${1:0:$2}$digit${1:$(($2 + 1))}"; }

# chain K..: from the key on, by each k in turn; each is the key of one rotation by the sum, and opens as the key does.
chain() {
    local turned=$key sum=0 k c
    for k; do
        turned=$(rotate "$turned" "$k")
        sum=$(((sum + k) % r))
        same "a chain of rotations comes to $sum" "$turned" "$(rotate "$key" $sum)"
        for c in "${sent[@]}"; do same "opening after $sum" "$(open "$turned" "$c")" "$(open "$key" "$c")"; done
    done
    turned=$(rotate "$turned" $(((r - sum) % r)))
    same 'the way back' "$turned" "$key"
}

for level in 1 3 5; do
    case $level in
    1) r=12323 public=1541 private=348 ciphertext=1573 ;;
    3) r=24659 public=3083 private=476 ciphertext=3115 ;;
    5) r=40973 public=5122 private=612 ciphertext=5154 ;;
    esac
    seed=$(printf '%02x' $(seq 1 64))
    message=$(printf '%02x' $(seq 101 132))
    h=$(make 4) key=$(make 5)
    c=$(wrap 4)
    same 'the key opens what is wrapped to it' "$(open "$key" "$c")" "$(wrap 5)"
    # as it was sent; with another bit in c0, in c1; and with no c0
    sent=("$c" "$(changed "$c" 20)" "$(changed "$c" $((2 * ciphertext - 1)))" "$(printf '0%.0s' $(seq $((2 * public))))${c:$((2 * public))}")
    chain 1 $((r - 1)) 7 $((r / 2)) $((r / 2)) $((r - 3)) 0
done

[ "$failed" -eq 0 ] || exit 1
echo 'rotations: each chain adds up and leads back, and opens what the key opens'
