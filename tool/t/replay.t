#!/bin/sh
# A journal, made again: its records, one that differs, the keys, and a long journal.
# shellcheck disable=SC2086 # the words of a command
. "$(dirname "$0")/common.sh"
umask 077 # lists of keys are nobody else's
make_modes
make_records

printf '%s\n' "$seals" "$opens" "$refuses" | unhex >journal
three='records 3 mode-gcm 3 answer-0 2 answer-4 1 bytes-in 224 bytes-out 144'
replay 'three records that agree' 0 "$three" --keys keys journal
judge 'nothing else is said' $status 0 ''
holds 'every count has its line' [ "$(wc -l <"$wrote")" -eq 41 ]
replay 'with the one key' 0 "$three" --key key --number 7 journal
cat journal | try 'from a pipe, as a table' 0 '' replay --keys keys -
cat >wanted <<end
Replay of standard input

               3  records

               0  cfb
               0  ofb
               0  ctr
               0  cbc
               3  gcm
               0  unknown

               2  0 done
               1  4 InvalidTag

             224  bytes in
             144  bytes out

all 3 records agree
end
same 'which is this' wanted "$wrote"
cat keys | replay 'the keys from a pipe' 0 "$three" --keys - journal
replay 'an empty journal' 0 '' --keys keys empty
replay 'an empty journal and no keys' 0 '' --keys empty empty
tells 'as a table' 'says so' 'no record was replayed' replay --keys keys empty
for mode in 'cfb 0' 'ofb 1' 'ctr 2' 'cbc 3'; do
    entry 0 ${mode#* } 7 '' "$(hex rough)" $iv 2000 0 "$(hex text.${mode% *})"
    entry 1 ${mode#* } 7 '' "$(hex text.${mode% *})" $iv 2000 0 "$(hex rough)"
done | unhex >journal
total=$((7 * $(wc -c <rough) + $(wc -c <text.cbc)))
replay 'the other modes, both ways' 0 \
    "records 8 mode-cfb 2 mode-ofb 2 mode-ctr 2 mode-cbc 2 answer-0 8 bytes-in $total bytes-out $total" --keys keys journal
for mode in 5 9 255; do entry 0 $mode 7 ab cdef 01 4000000000 7 ''; done | unhex >journal
replay 'modes that there are not' 0 'records 3 mode-unknown 3 answer-7 3 bytes-in 6' --keys keys journal
{
    entry 0 2 7 '' 0102 00 2 10 ''    # an IV of one byte
    entry 0 2 7 '' 0102 $iv 1 6 ''    # no room
    entry 1 3 7 '' '' $iv 0 8 ''      # nothing for cbc
    entry 1 3 7 '' 00 $iv 0 2 ''      # no block
    entry 1 4 7 '' 00 $iv 0 9 ''      # no tag
} | unhex >journal
replay 'refused calls, whose bytes went in' 0 \
    'records 5 mode-ctr 2 mode-cbc 2 mode-gcm 1 answer-2 1 answer-6 1 answer-8 1 answer-9 1 answer-10 1 bytes-in 6' --keys keys journal
entry 0 4 7 $label $text $rfc 4000000000 0 $sealed | unhex >journal
replay 'a room of 4000000000' 0 'records 1 mode-gcm 1 answer-0 1 bytes-in 64 bytes-out 80' --keys keys journal
tells 'one record' 'agrees' 'the one record agrees' replay --keys keys journal

# A record that differs. The first of two is told, and both are counted.
different() { # NAME RECORD LINES ANSWERED
    printf '%s\n' "$seals" "$2" "$opens" "$2" | unhex >journal
    replay "$1" 67 "records 4 $3 different-record 2 different-byte $size" --keys keys journal
    try 'as a table' 67 '' replay --keys keys journal
    holds 'with what was asked, recorded and answered' grep -qxF "record 2, at byte $size, is the first that differs: $4" "$wrote"
    holds 'and how it counts' grep -qxF 'records are counted from 1, and bytes from 0' "$wrote"
}
different 'in its number' "$(entry 0 4 7 $label $text $rfc 80 6 $sealed)" 'mode-gcm 4 answer-0 4 bytes-in 272 bytes-out 304' \
    'encrypt with gcm under key 7 was answered 6 NoRoom with 80 bytes, and is now answered 0 done with 80 bytes'
different 'in its length' "$(entry 0 4 7 $label $text $rfc 80 0 ${sealed%??})" 'mode-gcm 4 answer-0 4 bytes-in 272 bytes-out 304' \
    'encrypt with gcm under key 7 was answered 0 done with 79 bytes, and is now answered 0 done with 80 bytes'
different 'in its output' "$(entry 1 4 7 $label $sealed $rfc 64 0 ${text%?}b)" 'mode-gcm 4 answer-0 4 bytes-in 304 bytes-out 272' \
    'decrypt with gcm under key 7 was answered 0 done with 64 bytes, and is now answered with other bytes'
different 'opened, and now refused' "$(entry 1 4 7 ${label%2}3 $sealed $rfc 64 0 $text)" 'mode-gcm 4 answer-0 2 answer-4 2 bytes-in 304 bytes-out 144' \
    'decrypt with gcm under key 7 was answered 0 done with 64 bytes, and is now answered 4 InvalidTag with 0 bytes'
different 'in an unknown mode' "$(entry 0 200 7 '' 00 '' 1 0 00)" 'mode-gcm 2 mode-unknown 2 answer-0 2 answer-7 2 bytes-in 146 bytes-out 144' \
    'encrypt with mode 200 under key 7 was answered 0 done with 1 byte, and is now answered 7 BadMode with 0 bytes'
different 'under another key' "$(entry 1 4 1 $label $sealed $rfc 64 0 $text)" 'mode-gcm 4 answer-0 2 answer-4 2 bytes-in 304 bytes-out 144' \
    'decrypt with gcm under key 1 was answered 0 done with 64 bytes, and is now answered 4 InvalidTag with 0 bytes'
{ entry 0 4 7 $label $text $rfc 80 0 ${sealed%?}0 && echo "$seals"; } | unhex >journal
replay 'in the first record' 67 'records 2 mode-gcm 2 answer-0 2 bytes-in 128 bytes-out 160 different-record 1' --keys keys journal

# the keys
a=$(cat key) b=00112233445566778899aabbccddeeff
{ echo "$seals" && entry 1 4 1 $label $sealed $rfc 64 0 $text && entry 1 4 8 $label $sealed $rfc 64 0 $text; } | unhex >journal
three='records 3 mode-gcm 3 answer-0 3 bytes-in 224 bytes-out 208'
for n in 8 9; do seq -f "%.0f $a" $n >$n.keys; done
replay 'eight keys' 0 "$three" --keys 8.keys journal
try 'nine keys' 26 'luossavin replay: 9.keys, line 9: 26 BadKeys: a replay takes up to 8 keys, and this is one more' replay --keys 9.keys journal
silent
try 'before the journal is looked at' 26 '26 BadKeys' replay --keys 9.keys nowhere
{ cat keys && printf '\n07 %s\n' $b; } >twice
try 'a number twice' 26 'luossavin replay: twice, line 4: 26 BadKeys: key 7 is listed before: each number stands for one key' \
    replay --keys twice journal
silent
{ yes '' | head -n 4000 && cat keys && yes '' | head -n 100; } >long
try 'a very long list' 26 'luossavin replay: journal: 26 BadKeys: a replay takes up to 8 keys, and the list long has 4096 bytes or more' \
    replay --keys long journal
printf '\r\n\n007 %s\r\n\n00001 %s\n8 %s' 0123456789ABCDEFfedcba9876543210 $a $a >other
replay "another system's ends of line, empty lines, zeros in front, and no end at the end" 0 "$three" --keys other journal
for line in 7 '7 ' "$a" "7  $a" "7 $a " "7 ${a%?}g" "7 ${a%?}" "x $a" "-7 $a" "7,$a" ' '; do
    printf '1 %s\n\n%s\n' $b "$line" >lines
    try "a line \"$line\"" 64 "luossavin replay: lines, line 3: expected a key's number and 32 hex digits with a blank between" \
        replay --keys lines journal
    holds 'which is not shown' not grep -q 0123456789abcdef "$said"
done
echo '7 0123' | try 'a key of 2 bytes' 1 'luossavin replay: standard input, line 1: 1 ErrorBlockSize: this key has 4 hex digits, '\
'and neither 16 raw bytes nor 32 hex digits' replay --keys - journal
echo '0 01' | try 'and number 0' 1 'this key has 2 hex digits' replay --keys - journal
for number in 0 65536 4294967295 99999999999999999999; do
    printf '1 %s\n%s %s\n' $b $number $b >lines
    try "number $number" 13 "luossavin replay: lines, line 2: 13 WrongNumber: a key's number is 1 to 65535, not " replay --keys lines journal
    try 'and of the one key' 13 "luossavin replay: journal: 13 WrongNumber: the key's number is 1 to 65535, not $number" \
        replay --key key --number $number journal
done
try 'the keys and the journal on standard input' 64 'expected standard input for one of --keys and IN, not for both' replay --keys - - <journal
try 'the key and the journal' 64 'expected standard input for one of --key and IN, not for both' replay --key - - <journal
both='expected --keys, or --key and --number, not both:'
table try replay <<end
one key of 15 bytes|1|luossavin replay: journal: 1 ErrorBlockSize: the key file short has 15 bytes|--key short --number 0 journal
a list that is missing|66|cannot read the keys nowhere: No such file or directory|--keys nowhere journal
a key that is missing|66|cannot read the key nowhere: No such file or directory|--key nowhere journal
a journal that is missing|66|cannot read nowhere: No such file or directory|--keys keys nowhere
a journal that is a folder|66|cannot read .: Is a directory|--keys keys .
--keys and --key key|64|$both "--key"|--keys keys --key key journal
--key key and --keys|64|$both "--keys"|--key key --keys keys journal
--keys and --number 7|64|$both "--number"|--keys keys --number 7 journal
--number 7 and --keys|64|$both "--keys"|--number 7 --keys keys journal
end

# A long journal has records of many sizes: with ctr the front of a text is encrypted to the front of what the whole is.
awk -v plain="$(hex rough)" -v cipher="$(hex text.ctr)" -v iv=$iv 'BEGIN {
    for (turn = 0; turn < 2; turn++)
        for (n = 0; n <= 1400; n += 5)
            printf "545200020007%08x%08x%s00000010%s%08x00%08x%s\n", 0, n, substr(plain, 1, 2 * n), iv, n + turn, n, substr(cipher, 1, 2 * n)
}' >lines
unhex <lines >journal
n=$(wc -l <lines) m=$(wc -c <journal)
total=$((2 * 5 * 280 * 281 / 2))
holds 'it is longer than the window' [ $m -gt 700000 ]
whole="records $n mode-ctr $n answer-0 $n bytes-in $total bytes-out $total"
replay 'agrees from its first record to its last' 0 "$whole" --keys keys journal
pieces journal 70001 170001 | replay 'through a pipe, cut anywhere' 0 "$whole" --keys keys -
holds 'and says the same' grep -qxF "bytes-out $total" "$wrote"
# the window's end comes to stand at other places of the records
for shift in 1 2 3 5 8 13 21 34 55 89 144 233 377 610 987 1597; do
    { entry 0 9 7 '' "$(printf "%0$((2 * shift))d" 0)" '' 0 7 '' | unhex && cat journal; } >shifted
    replay "moved by $((27 + shift)) bytes" 0 "records $((n + 1)) mode-ctr $n mode-unknown 1 answer-0 $n answer-7 1 \
bytes-in $((total + shift)) bytes-out $total" --keys keys shifted
done
{ cat journal && entry 0 2 7 '' 00 $iv 1 0 ff | unhex && cat journal; } >shifted
k=$((2 * n + 1)) two=$((2 * total + 1))
replay 'one that differs in its middle' 67 "records $k mode-ctr $k answer-0 $k bytes-in $two bytes-out $two \
different-record $((n + 1)) different-byte $m" --keys keys shifted
{ cat journal && printf T; } >shifted
replay 'a byte behind it' 23 "$whole refusal 23 refused-record $((n + 1)) refused-byte $m" --keys keys shifted
tells 'as a table' 'with commas in its numbers' "         $(echo $total | sed 's/...$/,&/')  bytes in" replay --keys keys journal
full 'a report that cannot be written ' replay --keys keys journal
full 'a report that cannot be written --plain' replay --plain --keys keys journal
done_testing
