#!/bin/sh
# A plan, a range of a text, and several workers.
# shellcheck disable=SC2086 # a place is two words
. "$(dirname "$0")/common.sh"
make_modes
set -- --key key --iv $iv

# a plan
answers 'for three workers' 0 '0 48
48 48
96 4' plan --workers 3 100
answers 'for one' 0 '0 100' plan --workers=1 100
answers 'for more workers than blocks' 0 '0 16
16 1' plan 17 --workers 64
answers 'of one byte' 0 '0 1' plan --workers 2 1
answers 'of nothing' 0 '' plan --workers 2 0
answers 'with zeros in front, and after --' 0 '0 16' plan --workers 001 -- 00000000000000000000000000016
try 'of the longest text' 0 '' plan --workers 64 16777216
holds 'has 64 pieces' [ "$(wc -l <"$wrote")" -eq 64 ]
holds 'the last of which ends it' [ "$(tail -n 1 "$wrote")" = '16515072 262144' ]
for number in 0 00 65 4294967296 18446744073709551615 18446744073709551616 18446744073709551617 99999999999999999999999; do
    try "$number workers" 17 "luossavin plan: 17 BadWorkers: a plan is for 1 to 64 workers, not $number" plan --workers $number 100
    silent
    try 'and a text that is too long' 17 '17 BadWorkers' plan --workers $number 16777217
done
for length in 16777217 4294967295 4294967296 18446744073709551615 18446744073709551616 18446744073709551632 99999999999999999999999; do
    try "$length bytes" 5 "luossavin plan: 5 TooLong: a text has at most 16777216 bytes, not $length" plan --workers 4 $length
    silent
done
for word in x 1x 1.0 0x10 ' 1' ''; do
    try "workers \"$word\"" 64 "expected --workers with a whole number from 1 to 64, not \"$word\"" plan --workers "$word" 16777217
    try "length \"$word\"" 64 "expected LENGTH, a whole number, how many bytes the text has, not \"$word\"" plan --workers 65 "$word"
done
try 'workers -1' 64 'expected --workers with a whole number from 1 to 64, not "-1"' plan --workers=-1 100
full 'an answer that cannot be written' plan --workers 4 100

# a range
for place in '0 1' '0 16' '1 15' '15 2' '16 16' '7 900' '1000 300' '100 0'; do
    stretch rough $place >part
    stretch text.ctr $place >wanted
    gives "${place#* } bytes from ${place% *} on" 'are those of the whole' wanted range "$@" --offset ${place% *} part out
    gives 'and decrypted' 'are the text' part range "$@" --decrypt --offset ${place% *} out again
done
gives 'all of it' 'is the whole' text.ctr range "$@" --offset=0 rough out
head -c 300001 /dev/urandom >large
"$program" encrypt --mode ctr "$@" large large.ctr
stretch large 77777 222224 >part
stretch large.ctr 77777 222224 >wanted
gives "a stretch longer than the tool's buffers" 'is that of the whole' wanted range "$@" --offset 77777 part out
pieces part 5 70005 | try 'and through pipes, cut anywhere' 0 '' range "$@" --offset 77777 - -
same 'is that of the whole' wanted "$wrote"
cp part both
gives 'in its own place' 'it is the same' wanted range "$@" --offset 77777 both both
gives 'back, from standard input' 'it is the text' part range "$@" --offset 77777 --decrypt - both <wanted
head -c 17 rough >blocks
try 'a counter that comes round is not told' 0 '' range --key key --iv ffffffffffffffffffffffffffffffff --offset 0 blocks out

# what is refused of it
head -c 1 rough >one
head -c 2 rough >two
gives 'nothing at the limit' 'is done' empty range "$@" --offset 16777216 empty out
try 'nothing at the limit, with a retired key that decrypts' 0 '' range "$@" --retired --decrypt --offset 16777216 empty out
try 'the last byte before it' 0 '' range "$@" --offset 16777215 one out
has_size 'is done' out 1
past='5 TooLong: a text has at most 16777216 bytes, and this file, which begins at byte'
for place in 'one 16777216' 'two 16777215' 'empty 16777217' 'one 4294967295' 'empty 4294967296' 'empty 18446744073709551615' \
    'one 18446744073709551615' 'two 18446744073709551615' 'one 18446744073709551616' 'one 99999999999999999999999'; do
    name=${place% *} offset=${place#* }
    refused "$name at $offset" 5 "luossavin range: $name: $past $offset of its text, ends past that: look at --offset" \
        range "$@" --offset $offset $name out
    refused 'and decrypted, with a retired key' 5 "$past $offset" range "$@" --decrypt --retired --offset $offset $name out
    cat $name | try 'through a pipe' 5 "luossavin range: standard input: $past $offset" range "$@" --offset $offset - -
    silent 'nothing is written'
done
refused 'a key of 15 bytes, and all else' 1 'luossavin range: one: 1 ErrorBlockSize: the key file short has 15 bytes' \
    range --key short --number 0 --retired --iv 00 --offset 16777216 one out
refused 'number 0, and all behind it' 13 "13 WrongNumber: the key's number is 1 to 65535, not 0" \
    range --key key --number 0 --retired --iv 00 --offset 16777216 one out
refused 'a short IV, and all behind it' 10 '10 WrongIv: the IV has 1 byte, not 16: it takes 32 hex digits' \
    range --key key --retired --iv 00 --offset 16777216 one out
refused 'an IV of 12 bytes' 10 '10 WrongIv: the IV has 12 bytes, not 16' range --key key --iv $iv12 --offset 0 one out
refused 'a short IV, decrypting' 10 '10 WrongIv' range --key key --retired --iv 00 --decrypt --offset 16777216 one out
refused 'a retired key, past the end' 14 'luossavin range: one: 14 Retired: this key is retired' range "$@" --retired --offset 16777216 one out
refused 'a retired key' 14 '14 Retired: key 7 is retired' range "$@" --number 7 --retired --offset 0 one out
gives 'a retired key that decrypts' 'gives the text' part range "$@" --number 7 --retired --decrypt --offset 77777 wanted out
refused 'IN is missing' 66 'cannot read nowhere: No such file or directory' range "$@" --offset 0 nowhere out
refused 'the key is missing' 66 'cannot read the key nowhere' range --key nowhere --iv $iv --offset 0 one out
expected='expected --offset with a whole number, the place in the text where IN begins,'
for word in x 1x 1.0 0x10 ' 1' ''; do refused "offset \"$word\"" 64 "$expected not \"$word\"" range "$@" --offset "$word" one out; done
try 'offset -1' 64 "$expected not \"-1\"" range "$@" --offset=-1 one out
try 'the key and IN on standard input' 64 'expected standard input for one of --key and IN, not for both' \
    range --key - --iv $iv --offset 0 - out <key

# Encrypts or decrypts a text by a plan for so many workers, four at a time, and puts the parts together.
together() { # WORKERS TEXT OUT WORDS..
    workers=$1 text=$2 joined=$3
    shift 3
    "$program" plan --workers $workers "$(wc -c <$text)" >plan
    run "by $workers workers" 0 '' env text=$text program="$program" words="$*" xargs -r -P 4 -n 2 sh -c \
        'tail -c +$(($1 + 1)) "$text" | head -c $2 | "$program" range $words --offset $1 - part.$1' sh <plan
    while read -r offset _; do cat part.$offset; done <plan >$joined
    rm -f part.*
}
for workers in 1 3 7; do
    together $workers large out "$@"
    same 'together they write what one writes' large.ctr out
    together $workers out again "$@" --decrypt --retired
    same 'and decrypt it' large again
done
together 64 empty out "$@"
same 'of nothing together nothing' empty out
done_testing
