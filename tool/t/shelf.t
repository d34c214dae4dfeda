#!/bin/sh
# A shelf: what is put on it, found, opened, listed and collected; what is refused; and a shelf that is damaged.
# shellcheck disable=SC2086 # the words of a command
. "$(dirname "$0")/common.sh"
set -- --key key --iv $iv
make_editions 4711.1 4711.2 4712.1
put='shelf put --unchecked'

try 'put on a shelf that is not there yet' 0 '' $put --job 4711 --edition 1 team.shelf 4711.1
try 'another job, from standard input' 0 '' $put --job=4712 --edition=1 -- team.shelf - <4712.1
try 'a higher edition, with the words in another order' 0 '' $put team.shelf --edition 2 4711.2 --job 4711
has_size 'a shelf has 12 bytes more for each' team.shelf $((3 * ($(wc -c <4711.1) + 12)))
listed() { # NAME, with the lines on standard input
    { echo '       job   edition  state          bytes' && cat; } >wanted
    try "$1: the table" 0 '' shelf list team.shelf
    same "$1" wanted "$wrote"
}
size=$(printf %10d "$(wc -c <4711.1)")
listed 'three records in their order' <<end
      4711         1  superseded$size
      4712         1  current   $size
      4711         2  current   $size
end
tells 'find' 'says the current edition' "team.shelf has edition 2 of job 4711 as the current one, a sealed file of $((size)) bytes" \
    shelf find --job 4711 team.shelf
try 'find with OUT' 0 'luossavin shelf find: team.shelf: wrote edition 2 of job 4711' shelf find --job 4711 team.shelf out
same 'writes the sealed file' 4711.2 out
try 'find to standard output' 0 'wrote edition 1 of job 4712' shelf find --job 4712 team.shelf -
same 'writes that of the other job' 4712.1 "$wrote"
try 'open' 0 'luossavin shelf open: team.shelf: opened edition 2 of job 4711' shelf open "$@" --job 4711 team.shelf text
same 'gives the text' rough text
try 'with a retired key from standard input, to standard output' 0 'opened edition 1 of job 4712' \
    shelf open --key - --iv $iv --number 7 --retired --job 4712 team.shelf - <key
same 'gives the text too' rough "$wrote"
try 'collect' 0 '' shelf collect team.shelf
listed 'what is current is left' <<end
      4712         1  current   $size
      4711         2  current   $size
end
cp team.shelf before
gives 'collect once more' 'changes nothing' before shelf collect team.shelf
: >none.shelf
try 'an empty file is an empty shelf' 0 '' shelf collect none.shelf
try 'put edition 0 of job 0 on it, an empty file' 0 '' $put --job 0 --edition 0 none.shelf empty
tells 'find it' 'a file of 0 bytes' 'none.shelf has edition 0 of job 0 as the current one, a sealed file of 0 bytes' shelf find --job 0 none.shelf
chmod 640 team.shelf
try 'the largest job and edition' 0 '' $put --job 4294967295 --edition 65535 team.shelf 4711.1
holds 'a shelf keeps its permissions' [ "$(stat -c %a team.shelf)" = 640 ]
listed 'in the widest columns' <<end
      4712         1  current   $size
      4711         2  current   $size
4294967295     65535  current   $size
end
head -c 65524 /dev/zero >full
try 'a file that fills a shelf' 0 '' $put --job 1 --edition 1 full.shelf full
has_size 'to its last byte' full.shelf 65536
dropped='which is superseded, for room'
try 'in its place, what is superseded is thrown out' 0 "luossavin shelf put: full.shelf: dropped edition 1 of job 1, $dropped" \
    $put --job 1 --edition 2 full.shelf full
has_size 'and it is as full' full.shelf 65536
try 'a put that drops nothing says nothing' 0 '' shelf put "$@" --job 4711 --edition 1 quiet.shelf 4711.1
head -c 40000 /dev/zero >half
"$program" $put --job 5 --edition 1 half.shelf half
for edition in 1 2; do "$program" $put --job 6 --edition $edition half.shelf empty; done
try 'one that drops two says both' 0 "luossavin shelf put: half.shelf: dropped edition 1 of job 5, $dropped" \
    $put --job 5 --edition 2 half.shelf half
holds 'the other too' grep -qxF "luossavin shelf put: half.shelf: dropped edition 1 of job 6, $dropped" "$said"

# what is refused leaves every file as it was
for n in 65525 16777232; do head -c $n /dev/zero >zeros.$n; done
cp key keyfile
ln -s team.shelf link.shelf
sealed='this file was not sealed under'
table left shelf <<end
a lower one|20|has edition 2 of job 4711 already, and takes only a higher one, not 1|put --unchecked --job 4711 --edition 1 team.shelf 4711.1
an edition that is not higher, with no room|20|has edition 2 of job 1 already|put --unchecked --job 1 --edition 2 full.shelf full
no room|21|luossavin shelf put: full.shelf: 21 NoShelfRoom: a shelf has 65536 bytes|put --unchecked --job 2 --edition 1 full.shelf empty
a byte too much|21|21 NoShelfRoom|put --unchecked --job 1 --edition 3 full.shelf zeros.65525
a file of 16 MiB|21|21 NoShelfRoom|put --unchecked --job 1 --edition 3 full.shelf zeros.16777232
find a job that it has not|22|luossavin shelf find: team.shelf: 22 NoCurrent: this shelf has no current edition of job 5|find --job 5 team.shelf out
open a job that it has not|22|luossavin shelf open: team.shelf: 22 NoCurrent|open $* --job 5 team.shelf out
another IV|4|4 InvalidTag: $sealed job 4711, edition 2, with key 7 and this IV|open --key key --number 7 --iv 0${iv#?} --job 4711 team.shelf out
number 0|13|13 WrongNumber: the key's number is 1 to 65535, not 0|open --key key --number 0 --iv 00 --job 4711 team.shelf out
a short IV|10|10 WrongIv: the IV has 1 byte, not 12 or 16|open --key key --iv 00 --job 4711 team.shelf out
what is wrong with the shelf before the key|22|22 NoCurrent|open --key short --iv 00 --job 5 team.shelf out
OUT is SHELF|66|the shelf is named twice on the command line|find --job 4711 team.shelf ./team.shelf
IN is SHELF|66|the shelf is named twice on the command line|put --unchecked --job 4711 --edition 3 team.shelf team.shelf
OUT holds the key|66|it holds the key|open --key keyfile --iv $iv --job 4711 team.shelf keyfile
SHELF is a link|66|cannot write link.shelf: it is a link|put --unchecked --job 9 --edition 1 link.shelf 4711.1
end
same 'and still does' key keyfile
left 'the edition that it has' 20 'luossavin shelf put: team.shelf: 20 NotHigher: this shelf has edition 2 of job 4711 already, '\
'and takes only a higher one, not 2' $put --job 4711 --edition 2 team.shelf 4711.2
left 'the label of another job' 4 "luossavin shelf open: team.shelf, edition 65535 of job 4294967295: 4 InvalidTag: \
$sealed job 4294967295, edition 65535, with this key and IV" shelf open "$@" --job 4294967295 team.shelf out
left 'a key of 15 bytes' 1 'luossavin shelf open: team.shelf, edition 2 of job 4711: 1 ErrorBlockSize: the key file short has 15 bytes' \
    shelf open --key short --number 0 --iv 00 --job 4711 team.shelf out
left 'an empty file does not open' 9 'luossavin shelf open: none.shelf, edition 0 of job 0: 9 ShortGcm: this file has 0 bytes' \
    shelf open "$@" --job 0 none.shelf out
try 'a file that is too long for a new shelf' 21 '21 NoShelfRoom' $put --job 1 --edition 1 new.shelf zeros.65525
holds 'makes none' [ ! -e new.shelf ]
try 'SHELF is a device' 66 'cannot write /dev/null: expected a file' $put --job 9 --edition 1 /dev/null 4711.1
try 'IN is missing' 66 'cannot read nowhere: No such file or directory' $put --job 9 --edition 1 new.shelf nowhere
holds 'and no shelf is made' [ ! -e new.shelf ]
for command in 'find --job 1' "open $* --job 1" collect list; do
    case $command in open*) name='new.shelf out' ;; *) name=new.shelf ;; esac
    refused "$command without a shelf" 66 'cannot read new.shelf: No such file or directory' shelf $command $name
done
holds 'none is made' [ ! -e new.shelf ]
try 'no folder' 66 'cannot write nowhere/new.shelf: No such file or directory' $put --job 1 --edition 1 nowhere/new.shelf 4711.1

# a damaged shelf: the place where it breaks off
damaged() { # NAME PLACE <SHELF
    cat >bad.shelf
    for command in 'put --unchecked --job 9 --edition 1 bad.shelf 4711.1' 'find --job 4711 bad.shelf out' \
        "open --key key --iv $iv --job 4711 bad.shelf out" 'collect bad.shelf' 'list bad.shelf'; do
        left "$1: ${command%% *}" 19 "luossavin shelf ${command%% *}: bad.shelf: 19 BadShelf: this shelf breaks off at byte $2: " \
            shelf $command
        silent
    done
}
step=$((size + 12))
head -c $((3 * step - 1)) team.shelf | damaged 'the last byte is gone' $((2 * step))
cat team.shelf raw | damaged 'something is behind it' $((3 * step))
{ head -c $((step + 1)) team.shelf && printf E && tail -c +$((step + 3)) team.shelf; } | damaged 'another mark' $step
{ cat team.shelf && stretch team.shelf $step $step; } | damaged 'two current editions of a job' $((3 * step))
{ printf 'RD\0\0\0\1\0\1\377\377\377\377' && cat 4711.1; } | damaged 'a length of 2^32 - 1' 0
damaged 'no shelf' 0 <rough
head -c 65537 /dev/zero >bad.shelf
left 'a file that no shelf is as long as' 19 'bad.shelf: 19 BadShelf: this file has more than 65536 bytes' shelf list bad.shelf
left 'put on it, a file with no room' 19 '19 BadShelf' $put --job 9 --edition 1 bad.shelf zeros.65525
full 'a table to a full device' shelf list team.shelf
full 'an answer to a full device' shelf find --job 4711 team.shelf
done_testing
