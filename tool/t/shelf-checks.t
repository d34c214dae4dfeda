#!/bin/sh
# A shelf asks whether a file opens, before it takes it and afterwards, record by record; and a shelf that is no file.
# shellcheck disable=SC2086 # the words of a command
. "$(dirname "$0")/common.sh"
set -- --key key --iv $iv
make_editions 4711.1 4711.2 4712.1

try 'put without a key, or a word that says so' 64 'expected --key FILE and --iv HEX, to check that IN opens as this edition, '\
'or --unchecked to put it on the shelf without that check' shelf put --job 4711 --edition 1 asked.shelf 4711.1
for alone in '--key key' "--iv $iv" --retired '--number 7'; do
    try "nor with $alone alone" 64 'or --unchecked to put it on the shelf without that check' shelf put $alone --job 4711 --edition 1 asked.shelf 4711.1
    try 'nor beside --unchecked' 64 "expected --unchecked, or --key and --iv, not both: \"${alone%% *}\"" \
        shelf put --unchecked $alone --job 4711 --edition 1 asked.shelf 4711.1
done
holds 'no shelf is made' [ ! -e asked.shelf ]
try 'put a file that opens' 0 '' shelf put "$@" --job 4711 --edition 1 asked.shelf 4711.1
try 'the reference to a file that opens' 0 '' shelf put --reference "$@" --job 4711 --edition 1 named.shelf 4711.1
"$program" shelf find --job 4711 named.shelf out 2>"$said"
{ printf 'Luossavin test!!' && tail -c 16 4711.1; } >wanted
same 'is its IV and its tag' wanted out
"$program" seal --key key --iv $iv12 --job 4711 --edition 2 rough 4711.12
left 'a wrong edition is refused' 4 'luossavin shelf put: 4711.2: 4 InvalidTag: this file was not sealed under job 4711, '\
'edition 65535, with this key and IV' shelf put "$@" --job 4711 --edition 65535 asked.shelf 4711.2
table left shelf put --job 4711 --edition 2 <<end
and a text that was not sealed|4|4 InvalidTag|$* asked.shelf rough
and one that is shorter than a tag|9|luossavin shelf put: empty: 9 ShortGcm: this file has 0 bytes|$* asked.shelf empty
and a key of another size|1|1 ErrorBlockSize: the key file short has 15 bytes|--key short --iv $iv asked.shelf 4711.2
and another IV|4|4 InvalidTag|--key key --number 7 --iv $iv12 asked.shelf 4711.2
and an IV of another size|10|10 WrongIv: the IV has 1 byte|--key key --iv 00 asked.shelf 4711.2
and to one that does not is refused|4|4 InvalidTag|--reference $* named.shelf 4711.1
and without a key|64|expected --key FILE and --iv HEX|--reference named.shelf 4711.2
and unchecked|64|expected --unchecked, or --key and --iv|--reference --unchecked named.shelf 4711.2
and with an IV of 12 bytes|10|named.shelf: 10 WrongIv: the IV has 12 bytes, and a reference has one of 16|--reference --key key --iv $iv12 named.shelf 4711.12
end
printf '%s\n' $iv >rough.iv
try 'with a retired key, and the IV from a file' 0 '' \
    shelf put --key - --number 7 --retired --iv-file rough.iv --job 4711 --edition 2 asked.shelf 4711.2 <key
try 'another job' 0 '' shelf put "$@" --job 4712 --edition 1 asked.shelf 4712.1
try 'and what was not asked about' 0 '' shelf put --unchecked --job 9 --edition 9 asked.shelf rough

# every record of a shelf
printf '# job edition IV\n\n4711 2 %s  # the final\n4712\t1 %s\n9 9 %s\n1 1 00\n' $iv $iv $iv >ivs
try 'verify tells the first that does not open' 4 'luossavin shelf verify: asked.shelf, edition 9 of job 9: 4 InvalidTag: '\
'this file was not sealed under job 9, edition 9' shelf verify --key key --ivs ivs asked.shelf
printf 'edition 2 of job 4711: opens\nedition 1 of job 4712: opens\nedition 9 of job 9: 4 InvalidTag\n' >wanted
same 'a line for each current record' wanted "$wrote"
grep -v '^9' ivs >fewer
try 'an IV is missing' 66 'luossavin shelf verify: asked.shelf: fewer has no IV for 1 of the current records' \
    shelf verify --key key --ivs fewer asked.shelf
holds 'which is told' grep -qxF 'edition 9 of job 9: not asked, since the list has no IV for it' "$wrote"
for edition in 1 2; do "$program" shelf put "$@" --job 4711 --edition $edition sound.shelf 4711.$edition; done
try 'all of them open' 0 '' shelf verify --key key --number 3 --retired --ivs ivs sound.shelf
holds 'the current one alone is asked about' [ "$(cat "$wrote")" = 'edition 2 of job 4711: opens' ]
try 'the list on standard input' 0 '' shelf verify --key key --ivs - sound.shelf <ivs
(umask 077 && echo 00112233445566778899aabbccddeeff >other.key)
try 'another key' 4 '4 InvalidTag' shelf verify --key other.key --ivs ivs sound.shelf
for line in '4711 2' '4711 2 0g' '4711 2 000' '4711 65536 00' '4294967296 1 00' 'x 1 00' '4711 2 00 00'; do
    printf '\n%s\n' "$line" >lines
    try "a line \"$line\"" 64 'luossavin shelf verify: lines, line 2: expected a job, an edition and an IV in hex digits' \
        shelf verify --key key --ivs lines sound.shelf
done
table try shelf verify --key key <<end
a list that is missing|66|cannot read the IVs nowhere: No such file or directory|--ivs nowhere sound.shelf
a shelf that is damaged|19|19 BadShelf: this shelf breaks off at byte 0|--ivs ivs rough
no list|64|expected --ivs with a file that has a job, an edition and an IV to a line, which is missing|sound.shelf
end
full 'an answer that cannot be written' shelf verify --key key --ivs ivs sound.shelf

# a shelf that is no file
mkfifo fifo.shelf
mkdir folder.shelf
for command in 'put --unchecked --job 1 --edition 1 fifo.shelf empty' 'collect fifo.shelf' 'list fifo.shelf' 'find --job 1 fifo.shelf' \
    "open --key key --iv $iv --job 1 fifo.shelf out" 'verify --key key --ivs ivs fifo.shelf'; do
    run "a pipe as SHELF: ${command%% *}" 66 'fifo.shelf: expected a file' timeout 5 "$program" shelf $command
done
holds 'and no lock is left' [ ! -e fifo.shelf.lock ]
holds 'it is still a pipe' [ -p fifo.shelf ]
for command in 'put --unchecked --job 1 --edition 1 folder.shelf empty' 'collect folder.shelf' 'list folder.shelf'; do
    try "a folder as SHELF: ${command%% *}" 66 'folder.shelf: Is a directory' shelf $command
done
done_testing
