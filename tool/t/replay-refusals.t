#!/bin/sh
# What a replay refuses, each with the place of its record.
# shellcheck disable=SC2086 # parts are four numbers
. "$(dirname "$0")/common.sh"
make_records

# A record behind one that agrees, or a part of it.
bad() { # NAME STATUS <RECORD
    case $2 in 23) answer='23 BadRecord' ;; 24) answer='24 PartTooLong' ;; *) answer='25 UnknownKey' ;; esac
    { echo "$seals" | unhex && cat; } >journal
    replay "$1" $2 "records 1 mode-gcm 1 answer-0 1 bytes-in 64 bytes-out 80 refusal $2 refused-record 2 refused-byte $size" --keys keys journal
    judge 'it says so, and where' $status $2 "luossavin replay: journal: $answer: record 2, which begins at byte $size, "
    cat journal | try 'from a pipe' $2 "luossavin replay: standard input: $answer: record 2, which begins at byte $size, " replay --keys keys -
    holds 'after the report of the record before it' grep -qxF 'the one record before the one that was refused agrees' "$wrote"
}
echo "$opens" | unhex >whole
printf T | bad 'a single byte' 23
for k in 2 3 5 6 9 10 29 30 37 $((size - 1)); do head -c $k whole | bad "the first $k bytes of a record" 23; done
entry 2 4 7 $label $sealed $rfc 64 0 $text | unhex | bad 'direction 2' 23
entry 255 4 9 $label $sealed $rfc 64 0 $text | unhex | bad 'direction 255, and an unknown key' 23
for mark in 5453 4452 5254; do echo "$mark${opens#????}" | unhex | bad "mark $mark" 23; done
bad 'no journal' 23 <rough
entry 1 4 8 $label $sealed $rfc 64 0 $text | unhex | bad 'an unknown key' 25
try 'which is named' 25 'is of key 8, which is not among the keys that were given; give that key too' replay --keys keys journal
entry 1 4 0 $label $sealed $rfc 64 0 $text | unhex | bad 'key 0' 25
# A record of zeros, whose parts have these lengths.
zeros() { # KEY LABEL DATA IV OUTPUT
    perl -e 'my ($key, @n) = @ARGV; my @z = map { "\0" x $_ } @n;
        print pack "H8 n N/a* N/a* N/a* N x N/a*", "54520002", $key, @z[0 .. 2], $n[1], $z[3]' "$@"
}
for parts in '16385 0 0 0' '0 16385 0 0' '0 0 16385 0' '0 0 0 16401' '16385 16385 16385 16401' '5000000 0 0 0' '0 5000000 0 0' '0 0 5000000 0' \
    '0 0 0 5000000' '70000 70000 70000 70000'; do
    zeros 7 $parts >whole
    bad "parts of $parts bytes" 24 <whole
    try 'what to do next is said' 24 'leave such calls out where the journal is made' replay --keys keys journal
    head -c -1 whole | bad 'cut by a byte' 23
    { cat whole && echo "$opens" | unhex; } | bad 'and a record behind it' 24
    zeros 8 $parts | bad 'of an unknown key' 24
    { head -c 2 whole && printf '\002' && tail -c +4 whole; } | bad 'with direction 2' 23
done
echo 545200020007ffffffff | unhex >part
bad 'a length of 2^32 - 1, and no more' 23 <part
{ cat part && head -c 5000000 /dev/zero; } | bad 'and five million bytes' 23
{ zeros 7 16384 16384 16384 16400 && zeros 8 16384 16384 16384 16400; } >journal
replay 'the longest record that there is, and an unknown key' 25 \
    'records 1 mode-ctr 1 answer-10 1 bytes-in 16384 different-record 1 refusal 25 refused-record 2 refused-byte 65579' --keys keys journal
{ { echo "$seals" && entry 0 4 7 $label $text $rfc 80 0 '' && echo "$opens"; } | unhex && printf T; } >journal
replay 'a record that differs, and then a refusal' 23 "records 3 mode-gcm 3 answer-0 3 bytes-in 208 bytes-out 224 different-record 2 \
different-byte $size refusal 23 refused-record 4 refused-byte $((3 * size - 80))" --keys keys journal
try 'the table tells the first of them' 23 '23 BadRecord: record 4, which' replay --keys keys journal
holds 'as ever' grep -qF "record 2, at byte $size, is the first that differs" "$wrote"
done_testing
