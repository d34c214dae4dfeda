#!/bin/sh
# Each command on the sample, and the words of a command in other forms.
. "$(dirname "$0")/common.sh"

try 'seal says nothing' 0 '' seal "$@" --edition 1 rough sealed
has_size 'a sealed file is 16 bytes longer' sealed $(($(wc -c <rough) + 16))
gives 'open says nothing' 'open gives the text back' rough open "$@" --edition 1 sealed text
tells 'opens, under its label' 'opens says so' 'sealed opens under job 4711, edition 1' opens "$@" --edition 1 sealed
try 'words in another order' 0 '' open sealed --edition 1 text2 "$@"
same 'and the same text' rough text2
for mode in cfb ofb ctr cbc; do
    try "encrypt with $mode" 0 '' encrypt --mode $mode --key key --iv $iv rough text.$mode
    gives "decrypt with $mode" "$mode gives the text back" rough decrypt --mode $mode --key key --iv $iv text.$mode back
    if openssl enc -sm4-$mode -K "$(cat key)" -iv $iv <rough >by-openssl 2>/dev/null; then
        same "OpenSSL encrypts the sample with $mode as the tool does" by-openssl text.$mode
    fi
done
try 'seal an empty file' 0 '' seal "$@" --edition 1 empty empty.sealed
gives 'open it' 'an empty file comes back' empty open "$@" --edition 1 empty.sealed out
try 'seal under an IV of 12 bytes' 0 '' seal --key key --iv $iv12 --job 4711 --edition 1 rough twelve.sealed
gives 'open it' 'the text comes back' rough open --key key --iv $iv12 --job 4711 --edition 1 twelve.sealed out
# files that libgcrypt sealed, under the largest job and edition
cp -r "$here/tool/data" data && chmod 600 data/key
gives 'open what another implementation sealed' 'it is that text' data/lines.txt open --key data/key --iv 4c756f73736176696e20726f75676803 \
    --job 4294967295 --edition 65535 data/lines.sealed out
gives 'and under an IV of 12 bytes' 'it is that text too' data/lines.txt open --key data/key --iv 4c756f73736176696e203132 \
    --job 4294967295 --edition 65535 data/lines12.sealed out
try 'numbers with zeros in front' 0 '' opens --key key --iv $iv --job 0004711 --edition 01 sealed

# words in other forms
try '--key=FILE, and so for each' 0 '' opens --key=key --number=1 --iv=$iv --job=4711 --edition=1 sealed
try 'a value that is wrong is said alone' 64 'not "12x"' opens --key=key --iv=$iv --job=12x --edition=1 sealed
try 'an option with = where a value is expected' 64 'not "--edition=1"' opens --job --edition=1
cp sealed ./-dash
try 'names with a dash, after --' 0 '' open "$@" --edition 1 -- -dash -out
same 'the text is there' rough ./-out
try 'an option after -- is a file' 64 'expected no further word, not "--iv"' opens "$@" --edition 1 -- sealed --iv
try 'help is a file after --' 66 'cannot read --help: No such file or directory' opens "$@" --edition 1 -- --help
gives 'a mode with =' 'is that mode' text.ctr encrypt --mode=ctr --key=key --iv=$iv rough out

# A counter that comes round. Of an IV of all ones the second block's counter is 0. Under the sample's key J0 of the other IV ends in
# ffffffff, so that the first block's is 0: it is (J0 / H + 128) / H in the field of the hash, with H the cipher of sixteen zero bytes
# (host/c/wrap.c does the same).
ones=ffffffffffffffffffffffffffffffff
round=aebe04305468e0e97f488212b24bb0bf
warning='warning: under this IV the counter came round to 0, where it may meet another file'\''s; take another IV and '
head -c 16 rough >block
head -c 17 rough >blocks
for in in empty block; do try "ctr of $in from all ones" 0 '' encrypt --mode ctr --key key --iv $ones $in out; done
try 'ctr of two blocks from all ones' 0 "luossavin encrypt: blocks: ${warning}encrypt the file anew" \
    encrypt --mode ctr --key key --iv $ones blocks out
try 'and back' 0 "luossavin decrypt: out: ${warning}have the file encrypted anew" decrypt --mode ctr --key key --iv $ones out again
same 'the work is done' blocks again
for mode in cfb ofb cbc; do try "$mode from all ones" 0 '' encrypt --mode $mode --key key --iv $ones blocks out; done
set -- --key key --iv $round --job 4711 --edition 1
try 'seal nothing' 0 '' seal "$@" empty out
try 'seal one block' 0 "luossavin seal: block: ${warning}seal the file anew" seal "$@" block out
try 'opens' 0 "luossavin opens: out: ${warning}have the file sealed anew" opens "$@" out
holds 'and says so' grep -qxF 'out opens under job 4711, edition 1' "$wrote"
try 'open' 0 "luossavin open: out: ${warning}have the file sealed anew" open "$@" out again
same 'the work is done' block again
{ printf x && tail -c +2 out; } >forged
try 'a changed file is refused' 4 '4 InvalidTag' opens "$@" forged
holds 'and nothing is said of a counter' not grep -q warning "$said"
try 'in a pipe' 0 "luossavin seal: standard input: ${warning}seal the file anew" seal "$@" - - <block
try 'an IV of its last twelve bytes' 0 '' seal --key key --iv ffffffffffffffffffffffff --job 4711 --edition 1 blocks out
done_testing
