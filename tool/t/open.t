#!/bin/sh
# What is refused, and that each refusal leaves OUT as it was.
. "$(dirname "$0")/common.sh"
make_modes
label='--job 4711 --edition 1'
head -c 30 key >digits
head -c 10000 /dev/zero >long
chmod 600 digits long
for n in 12 15 1000; do head -c $n rough.sealed >sealed.$n; done
head -c 17 text.cbc >cbc.17
head -c 1552 text.ctr >cbc-of-ctr
# Cbc xors the block before into the text: a bit of its last byte but one damages that of the padding, and one of its first byte the text.
changed_at() { # FILE PLACE
    head -c $(($2 - 1)) "$1"
    stretch "$1" $(($2 - 1)) 1 | LC_ALL=C tr '\000-\377' '\200-\377\000-\177'
    tail -c +$(($2 + 1)) "$1"
}
size=$(wc -c <text.cbc)
changed_at text.cbc $((size - 17)) >damaged
changed_at text.cbc $((size - 31)) >damaged-text
short='bytes; a sealed file has at least 16, so'
table refused <<end
key of 15 bytes|1|luossavin open: rough.sealed: 1 ErrorBlockSize: the key file short has 15 bytes|open --key short --iv $iv $label rough.sealed out
key of 30 digits|1|1 ErrorBlockSize: the key file digits has 30 hex digits|open --key digits --iv $iv $label rough.sealed out
empty key|1|1 ErrorBlockSize: the key file empty has 0 bytes|open --key empty --iv $iv $label rough.sealed out
key of 10000 bytes|1|1 ErrorBlockSize: the key file long has 10000 bytes|open --key long --iv $iv $label rough.sealed out
IV of 13 bytes|10|10 WrongIv: the IV has 13 bytes, not 12 or 16: it takes 24 or 32 hex digits|open --key key --iv ${iv12}73 $label rough.sealed out
empty IV|10|10 WrongIv: the IV has 0 bytes, not 12 or 16|open --key key --iv= $label rough.sealed out
15 bytes and a short IV|10|10 WrongIv: the IV has 1 byte, not 12 or 16|open --key key --iv 00 $label sealed.15 out
open 15 bytes|9|luossavin open: sealed.15: 9 ShortGcm: this file has 15 $short 1 is missing: was it cut off?|open $* --edition 1 sealed.15 out
open 12 bytes|9|luossavin open: sealed.12: 9 ShortGcm: this file has 12 $short 4 are missing: was it cut off?|open $* --edition 1 sealed.12 out
open nothing|9|9 ShortGcm: this file has 0 $short 16 are missing: was it cut off?|open $* --edition 1 empty out
seal with a short key|1|1 ErrorBlockSize|seal --key short --iv $iv $label rough out
encrypt with a short IV|10|10 WrongIv: the IV has 1 byte, not 16: it takes 32 hex digits|encrypt --mode ctr --key key --iv 00 rough out
encrypt with cfb under 12 bytes|10|10 WrongIv: the IV has 12 bytes, not 16: it takes 32 hex digits|encrypt --mode cfb --key key --iv $iv12 rough out
encrypt with ofb under 12 bytes|10|10 WrongIv: the IV has 12 bytes, not 16: it takes 32 hex digits|encrypt --mode ofb --key key --iv $iv12 rough out
encrypt with ctr under 12 bytes|10|10 WrongIv: the IV has 12 bytes, not 16: it takes 32 hex digits|encrypt --mode ctr --key key --iv $iv12 rough out
encrypt with cbc under 12 bytes|10|10 WrongIv: the IV has 12 bytes, not 16: it takes 32 hex digits|encrypt --mode cbc --key key --iv $iv12 rough out
open as another job|4|4 InvalidTag: this file was not sealed under job 4712, edition 1,|open --key key --iv $iv --job 4712 --edition 1 rough.sealed out
open a changed file|4|4 InvalidTag|open $* --edition 1 changed out
open a file that was cut|4|4 InvalidTag|open $* --edition 1 sealed.1000 out
open under 12 bytes of the IV|4|4 InvalidTag|open --key key --iv ${iv%????????} $label rough.sealed out
open with another IV|4|4 InvalidTag|open --key key --iv ${iv%?}2 $label rough.sealed out
end
table refused decrypt --mode cbc --iv $iv <<end
decrypt 17 bytes with cbc|2|2 ErrorDataLen: this file has 17 bytes, and cbc writes 16 or a multiple|--key key cbc.17 out
decrypt nothing with cbc|8|8 EmptyCbc: this file is empty, and cbc writes at least 16 bytes: was it cut off?|--key key empty out
decrypt with cbc what ctr encrypted|3|3 InvalidLastU8:|--key key cbc-of-ctr out
which names the key|15|with cbc, key 7 and this IV|--key key --number 7 --retired damaged out
end
refused 'decrypt with cbc a file that is damaged near its end' 15 'luossavin decrypt: damaged: 15 InvalidPadding: the end of this file is '\
'damaged: it was changed since, or not encrypted with cbc, this key and IV' decrypt --mode cbc --key key --iv $iv damaged out
try 'a file that is damaged before its padding decrypts, as cbc does' 0 '' decrypt --mode cbc --key key --iv $iv damaged-text out
has_size 'to a text as long' out "$(wc -c <rough)"
refused 'open as another edition' 4 'luossavin open: rough.sealed: 4 InvalidTag: this file was not sealed under job 4711, edition 2, '\
'with this key and IV, or it was changed since' open "$@" --edition 2 rough.sealed out
try 'nothing opens' 9 'luossavin opens: empty: 9 ShortGcm: this file has 0 bytes' opens "$@" --edition 1 empty
try 'opens, as another edition' 4 '4 InvalidTag' opens "$@" --edition 2 rough.sealed
silent 'opens then writes nothing'
done_testing
