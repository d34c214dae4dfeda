#!/bin/sh
# Which edition a file opens under, and which label of a list.
# shellcheck disable=SC2086 # the words of a table
. "$(dirname "$0")/common.sh"
for edition in 2 3 64 65535; do "$program" seal "$@" --edition $edition rough $edition.sealed; done
"$program" seal "$@" --edition 1 empty empty.sealed
"$program" seal --key key --iv $iv12 --job 4711 --edition 1 rough twelve.sealed
head -c 15 rough.sealed >fifteen
next='look for another key, another IV or another job, unless the file was changed since'

# A table of questions, with what is said of each file: "opens under job 4711, edition" or, if it does not open, "opens under none of".
# Their last word is the file.
questions() { # WORDS..
    while IFS='|' read -r name status answer words; do
        file=${words##* }
        [ "$file" != - ] || file='standard input'
        case $status in
        65) answer="opens under none of $answer: $next" ;;
        *) answer="opens under job 4711, edition $answer" ;;
        esac
        answers "$name" "$status" "$file $answer" which "$@" $words
    done
}
questions "$@" <<end
the first of a range|0|1|--editions 1-3 rough.sealed
one in its middle|0|2|--editions 1-3 2.sealed
its last|0|3|--editions 1-3 3.sealed
the last of 64|0|64|--editions 1-64 64.sealed
the last that there is|0|65535|--editions 65472-65535 65535.sealed
one edition|0|2|--editions 2 2.sealed
with zeros in front|0|2|--editions=0000001-00000000003 2.sealed
an empty text|0|1|--editions 0-1 empty.sealed
another edition than the one that was asked for|68|1: the edition you asked for, 2, is not in this file|--editions 1-2 --edition 2 rough.sealed
with a key that has a number|68|1, with key 7: the edition you asked for, 2, is not in this file|--number 7 --edition 2 --editions 1-2 rough.sealed
the one that was asked for|0|2: the edition you asked for|--editions 1-2 --edition 2 2.sealed
edition 0, which was asked for|68|1: the edition you asked for, 0, is not in this file|--editions 0-1 --edition 0 rough.sealed
with a number and nothing asked for|0|1, with key 7|--number 7 --editions 1-2 rough.sealed
with a retired key|0|1|--retired --editions 1-2 rough.sealed
none of a range|65|editions 1 to 2 of job 4711, with this key and IV|--editions 1-2 3.sealed
the edition after the last|65|editions 65471 to 65534 of job 4711, with this key and IV|--editions 65471-65534 65535.sealed
none, with a number|65|editions 1 to 2 of job 4711, with key 7 and this IV|--number 7 --editions 1-2 --edition 3 3.sealed
none of a changed file|65|editions 0 to 9 of job 4711, with this key and IV|--editions 0-9 changed
none of what is not sealed|65|editions 1 to 9 of job 4711, with this key and IV|--editions 1-9 rough
end
answers 'not the one edition' 65 "3.sealed does not open under edition 2 of job 4711, with this key and IV: $next" which "$@" --editions 2-2 3.sealed
questions --key key <<end
under an IV of 12 bytes|0|1|--iv $iv12 --job 4711 --editions 0-1 twelve.sealed
none with another job|65|editions 0 to 9 of job 4712, with this key and IV|--iv $iv --job 4712 --editions 0-9 rough.sealed
end
for count in 2 64; do
    pieces 64.sealed 5 | answers "from a pipe, the last of $count" 0 'standard input opens under job 4711, edition 64' \
        which "$@" --editions $((65 - count))-64 -
done
cat 3.sealed | answers 'from a pipe, none' 65 "standard input opens under none of editions 5 to 9 of job 4711, with this key and IV: $next" \
    which "$@" --editions 5-9 -
third='standard input opens under job 4711, edition 3'
{ printf abc && cat 3.sealed; } >behind
{ dd bs=1 count=3 status=none of=/dev/null && answers 'standard input is read from where it stands' 0 "$third" which "$@" --editions 1-9 -; } <behind
(export TMPDIR="$room/nowhere" && cat 3.sealed | answers 'a pipe is not kept aside' 0 "$third" which "$@" --editions 1-3 -)
full 'an answer that cannot be written' which "$@" --editions 1-3 rough.sealed
full 'that none opens cannot be written' which "$@" --editions 2-3 rough.sealed

# a list
set -- --key key --iv $iv
"$program" seal "$@" --job 0 --edition 0 rough 0.sealed
"$program" seal "$@" --job 4294967295 --edition 65535 rough last.sealed
printf '4711 2\n4712 1\n4711 1\n4711 3\n' >list
printf '4711 1\n4711 1\n4711 01\n' >equal
printf '4711 2\r\n4711 3' >other
printf '\n4711 2\n\r\n\n4711 3\n\n' >between
printf '\n\n' >gaps
echo '4294967295 65535' >last
seq -f '4711 %.0f' 64 >sixty-four
{ echo '4711 0' && cat sixty-four; } >sixty-five
seq -f '4711 %.0f' 0 65535 >all
questions "$@" <<end
a line in the middle|0|1|--candidates list rough.sealed
the first line|0|2|--candidates=list 2.sealed
the last|0|3|--candidates list 3.sealed
none|65|the candidates in list, with this key and IV|--candidates list 64.sealed
none, with a number|65|the candidates in list, with key 7 and this IV|--number 7 --retired --candidates list 64.sealed
the same one three times|0|1|--candidates equal rough.sealed
another system's ends of line, and none at the end|0|3|--candidates other 3.sealed
of which the first|0|2|--candidates other 2.sealed
empty lines|0|3|--candidates between 3.sealed
no candidates: empty|65|the candidates in empty, with this key and IV|--candidates empty rough.sealed
no candidates: gaps|65|the candidates in gaps, with this key and IV|--candidates gaps rough.sealed
nor the first label that there is|65|the candidates in empty, with this key and IV|--candidates empty 0.sealed
the last of 64 lines|0|64|--candidates sixty-four 64.sealed
end
answers 'the last label that there is' 0 'last.sealed opens under job 4294967295, edition 65535' which "$@" --candidates last last.sealed
answers 'on standard input' 0 '3.sealed opens under job 4711, edition 3' which "$@" --candidates - 3.sealed <list
cat list | answers 'none of those on standard input' 65 "64.sealed opens under none of the candidates in standard input, with this key and IV: $next" \
    which "$@" --candidates - 64.sealed
cat 3.sealed | answers 'a pipe and a list' 0 "$third" which "$@" --candidates list -
for name in empty gaps; do
    try 'a short key' 1 '1 ErrorBlockSize' which --key short --iv 00 --candidates $name fifteen
    try 'number 0' 13 '13 WrongNumber' which --key key --number 0 --iv 00 --candidates $name fifteen
    try 'a short IV' 10 '10 WrongIv' which --key key --iv 00 --candidates $name empty
    try 'a short file' 9 'luossavin which: empty: 9 ShortGcm: this file has 0 bytes' which "$@" --candidates $name empty
done
many='and up to 64 are asked about at once: ask about 64 at a time'
try '65 lines' 16 "luossavin which: 64.sealed: 16 BadList: sixty-five has 65 lines, $many" which "$@" --candidates sixty-five 64.sealed
silent 'and nothing is answered'
try 'before the key is read' 16 '16 BadList' which --key nowhere --iv 00 --candidates sixty-five nowhere
try 'a very long list' 16 'luossavin which: rough.sealed: 16 BadList: all has 65536 bytes or more of candidates' \
    which "$@" --candidates all rough.sealed
expected='expected a job and an edition with a blank between, as 4711 1, not'
for line in '4711,1' '4711' '4711 ' ' 1' '4711  1' '4711 1 ' '4711 1 2' '4711 x' 'x 1' '4294967296 1' '4711 65536' '-1 1' '4711 -1' ' ' '# all'; do
    printf '4711 2\n\n%s\n4711 1\n' "$line" >lines
    try "a line \"$line\"" 64 "luossavin which: lines, line 3: $expected \"$line\"" which "$@" --candidates lines rough.sealed
done
printf '4711 1\n4711\t1\n' >lines
try 'a line with a tab' 64 "lines, line 2: $expected \"4711\\x091\"" which "$@" --candidates lines rough.sealed
printf 'no' >lines
try 'no end of line' 64 "lines, line 1: $expected \"no\"" which "$@" --candidates lines rough.sealed
try 'on standard input' 64 'luossavin which: standard input, line 1: expected a job and an edition' which "$@" --candidates - rough.sealed <lines
{ cat sixty-four && echo no; } >lines
try 'a wrong line after 64' 16 '16 BadList: lines has 65 lines' which "$@" --candidates lines rough.sealed
{ echo no && cat sixty-four; } >lines
try 'a wrong line and too many' 64 'lines, line 1: expected a job and an edition' which "$@" --candidates lines rough.sealed
try 'a list that is missing' 66 'cannot read the candidates nowhere: No such file or directory' which "$@" --candidates nowhere rough.sealed
try 'a list that is a folder' 66 'cannot read the candidates .: Is a directory' which "$@" --candidates . rough.sealed
expected='expected standard input for one of'
try 'the key and the list on standard input' 64 "$expected --key and --candidates, not for both" which --key - --iv $iv --candidates - rough.sealed <key
try 'the list and IN' 64 "$expected --candidates and IN, not for both" which "$@" --candidates - - <list
try 'the key and IN' 64 "$expected --key and IN, not for both" which --key - --iv $iv --candidates list - <list
answers 'the key alone' 0 '3.sealed opens under job 4711, edition 3' which --key - --iv $iv --candidates list 3.sealed <key

# what is refused, and wrong words
table try which <<end
a key of 15 bytes|1|luossavin which: rough.sealed: 1 ErrorBlockSize: the key file short has 15 bytes|--key short --iv 00 --job 4711 --editions 1-2 rough.sealed
a number out of range|13|luossavin which: rough.sealed: 13 WrongNumber|--key key --number 65536 --iv 00 --job 4711 --editions 1-2 rough.sealed
an IV of 13 bytes|10|10 WrongIv: the IV has 13 bytes, not 12 or 16|--key key --iv ${iv12}73 --job 4711 --editions 1-2 fifteen
before the key is read|16|16 BadList|--key nowhere --iv 00 --job 1 --editions 1-65 nowhere
a job out of range|64|expected --job with a whole number from 0 to 4294967295, not "4294967296"|$* --job 4294967296 --editions 1-2 rough.sealed
end
for label in '--job 4711' '--editions 1-2' '--edition 1' '--job=4711 --editions=1-2'; do
    both='expected --candidates, or --job and --editions, not both:'
    try "--candidates and $label" 64 "$both \"${label%%[ =]*}" which "$@" --candidates list $label rough.sealed
    try "$label and --candidates" 64 "$both \"--candidates\"" which "$@" $label --candidates list rough.sealed
done
set -- "$@" --job 4711
try '15 bytes' 9 'luossavin which: fifteen: 9 ShortGcm: this file has 15 bytes; a sealed file has at least 16, so 1 is missing: was it cut off?' \
    which "$@" --editions 1-2 fifteen
cat fifteen | try 'and from a pipe' 9 'luossavin which: standard input: 9 ShortGcm: this file has 15 bytes' which "$@" --editions 1-2 -
try '65 editions' 16 "luossavin which: rough.sealed: 16 BadList: there are 65 candidates, $many" which "$@" --editions 1-65 rough.sealed
try 'all of them' 16 '16 BadList: there are 65536 candidates' which "$@" --editions 0-65535 rough.sealed
expected='expected --editions with a range as 1-3, of whole numbers from 0 to 65535, or one number,'
for range in 3-1 1- x 1-x x-1 1-2-3 1..3 '1 - 3' '1-3 ' 65536 1-65536 99999999999999999999 ''; do
    try "editions \"$range\"" 64 "$expected not \"$range\"" which "$@" --editions "$range" rough.sealed
done
try 'editions -3' 64 'or one number, not "-3"' which "$@" --editions=-3 rough.sealed
try 'an edition out of range' 64 'expected --edition with a whole number from 0 to 65535, not "65536"' \
    which "$@" --editions 1-2 --edition 65536 rough.sealed
try 'a file that is missing' 66 'cannot read nowhere: No such file or directory' which "$@" --editions 1-2 nowhere
done_testing
