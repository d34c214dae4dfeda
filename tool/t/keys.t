#!/bin/sh
# Keys and IVs: how they are written, the number of a key, a retired key, the IV in a file, and what is warned of.
. "$(dirname "$0")/common.sh"
make_modes
label='--job 4711 --edition 1'
"$program" seal --key key --iv $iv12 --job 4711 --edition 1 rough twelve.sealed
(
    umask 077
    tr 'a-f' 'A-F' <key | tr -d '\n' >upper
    printf '%s\r\n' "$(cat key)" >crlf
    cut -c 1-31 key >digits31
    head -c 307200 /dev/zero >huge
)
gives 'the key as raw bytes' 'is the same key' rough open --key raw --iv $iv --job 4711 --edition 1 rough.sealed out
size='ErrorBlockSize: the key file huge has 307200 bytes, and neither 16 raw bytes nor 32 hex digits'
table try opens --job 4711 --edition 1 rough.sealed <<end
the key in upper case, with no end of line|0||--key upper --iv $iv
the key with another system's end of line|0||--key crlf --iv $iv
the IV in upper case|0||--key key --iv $(echo $iv | tr 'a-f' 'A-F')
the size of a key file is its own|1|1 $size|--key huge --iv $iv
31 hex digits are 31|1|the key file digits31 has 31 hex digits,|--key digits31 --iv $iv
end
cat huge | try 'also of a pipe' 1 'the key file standard input has more than 65535 bytes' opens --key - --iv $iv --job 4711 --edition 1 rough.sealed

# a key with a number
for number in 1 7 65535; do
    tells "number $number" 'opens names the key by it' "rough.sealed opens under job 4711, edition 1, with key $number" \
        opens "$@" --number $number --edition 1 rough.sealed
done
gives 'seal with a number' 'which is not in the sealed file' rough.sealed seal "$@" --number 7 --edition 1 rough out
for number in 0 00 65536 4294967295 4294967296 4294967297 99999999999999999999999; do
    refused "number $number" 13 "luossavin open: rough.sealed: 13 WrongNumber: the key's number is 1 to 65535, not $number" \
        open "$@" --number $number --edition 1 rough.sealed out
done
for mode in cfb ofb ctr cbc; do
    refused "encrypted with $mode" 13 '13 WrongNumber' encrypt --mode $mode --key key --number 65536 --iv $iv rough out
    refused 'or decrypted' 13 '13 WrongNumber' decrypt --mode $mode --key key --number 65536 --iv $iv text.$mode out
done
head -c 1552 text.ctr >cbc-of-ctr
table refused <<end
open as another edition, with a number|4|edition 2, with key 7 and this IV, or it was changed since|open $* --number 007 --edition 2 rough.sealed out
with cbc|3|not encrypted with cbc, key 7 and this IV, or it was changed since|decrypt --mode cbc --key key --number 7 --iv $iv cbc-of-ctr out
nothing is sealed|13|13 WrongNumber|seal $* --number 0 --edition 1 rough out
a short key and number 0|1|1 ErrorBlockSize|open --key short --number 0 --iv $iv $label rough.sealed out
number 0 and a short IV|13|13 WrongNumber|open --key key --number 0 --iv 00 $label rough.sealed out
end
try 'nothing opens with such a number' 13 '13 WrongNumber' opens "$@" --number 0 --edition 1 rough.sealed

# a retired key opens, and seals nothing
cp rough again
gives 'open with it' 'gives the same text' rough open "$@" --retired --edition 1 rough.sealed out
gives 'under an IV of 12 bytes' 'gives the same text' rough open --key key --retired --iv $iv12 --job 4711 --edition 1 twelve.sealed out
cat rough.sealed | try 'from a pipe' 0 '' open "$@" --retired --edition 1 - -
same 'gives the same text' rough "$wrote"
tells 'opens with it' 'says the same' 'rough.sealed opens under job 4711, edition 1' opens "$@" --retired --edition 1 rough.sealed
refused 'open as another edition' 4 '4 InvalidTag: this file was not sealed under job 4711, edition 2, with this key and IV' \
    open "$@" --retired --edition 2 rough.sealed out
for mode in cfb ofb ctr cbc; do
    gives "decrypt with $mode" 'gives the same text' rough decrypt --mode $mode --key key --retired --iv $iv text.$mode out
    refused "encrypt with $mode" 14 'luossavin encrypt: again: 14 Retired: this key is retired' \
        encrypt --mode $mode --key key --retired --iv $iv again out
    same 'IN is as it was' rough again
done
refused 'seal with it' 14 'luossavin seal: again: 14 Retired: this key is retired: old files still open with it, and nothing new is sealed '\
'or encrypted under it; take the current key' seal "$@" --retired --edition 1 again out
same 'IN is as it was' rough again
try 'in its own place' 14 '14 Retired' seal "$@" --retired --edition 1 again again
same 'it is as it was' rough again
try 'to a new file' 14 '14 Retired' seal "$@" --retired --edition 1 again unsealed
holds 'which is not made' [ ! -e unsealed ]
try 'in a pipe' 14 'luossavin seal: standard input: 14 Retired' seal "$@" --retired --edition 1 - - <rough
silent 'nothing is written'
table refused <<end
the key is named by its number|14|14 Retired: key 7 is retired:|seal $* --number 7 --retired --edition 1 again out
a retired short key|1|1 ErrorBlockSize|seal --key short --retired --iv $iv $label again out
a retired key of number 0|13|13 WrongNumber|seal $* --number 0 --retired --edition 1 again out
a retired key and a short IV|10|10 WrongIv|seal --key key --retired --iv 00 $label again out
and with ctr|10|10 WrongIv|encrypt --mode ctr --key key --retired --iv 00 again out
end
gives 'the same key, not retired' 'seals as before' rough.sealed seal "$@" --edition 1 again out

# the IV in a file
printf '%s\n' $iv | tee rough.iv >kept.iv
printf '%s' $iv >bare.iv
printf '%s\r\n' "$(echo $iv | tr 'a-f' 'A-F')" >crlf.iv
printf 00 >small.iv
"$program" shelf put "$@" --edition 1 a.shelf rough.sealed
table try <<end
the IV in rough.iv|0||opens --key key --iv-file rough.iv $label rough.sealed
the IV in bare.iv|0||opens --key key --iv-file bare.iv $label rough.sealed
the IV in crlf.iv|0||opens --key key --iv-file crlf.iv $label rough.sealed
which|0||which --key key --iv-file rough.iv --job 4711 --editions 1-2 rough.sealed
shelf open|0|opened edition 1|shelf open --key key --iv-file rough.iv --job 4711 a.shelf out
both forms|64|expected --iv or --iv-file, not both: "--iv-file"|opens $* --iv-file rough.iv --edition 1 rough.sealed
and the other way round|64|expected --iv or --iv-file, not both: "--iv"|opens --iv-file rough.iv $* --edition 1 rough.sealed
a file of no hex digits|64|expected --iv-file with a file of hex digits, two to a byte, and raw is none|opens --key key --iv-file raw $label rough.sealed
a file that is missing|66|cannot read the IV nowhere: No such file or directory|opens --key key --iv-file nowhere $label rough.sealed
a file of one byte|10|10 WrongIv: the IV has 1 byte, not 12 or 16|opens --key key --iv-file small.iv $label rough.sealed
OUT is the file of the IV|66|cannot write rough.iv: it holds the IV; expected another file|seal --key key --iv-file rough.iv $label rough rough.iv
end
same 'it is as it was' kept.iv rough.iv
for mode in cfb ofb ctr cbc; do
    gives "encrypt with $mode" 'it is the same IV' text.$mode encrypt --mode $mode --key key --iv-file rough.iv rough out
done
gives 'range' 'it is the same IV' text.ctr range --key key --iv-file=rough.iv --offset 0 rough out
set -- --job 4711 --edition 1 rough.sealed
try 'and on standard input' 0 '' opens --key key --iv-file - "$@" <rough.iv
try 'where the key is not' 64 'expected standard input for one of --key and --iv-file, not for both' opens --key - --iv-file - "$@" <rough.iv

# warnings
others='warning: others can read the key file'
for mode in 640 604 644; do
    cp key open.key && chmod $mode open.key
    try "a key file of mode $mode" 0 "luossavin opens: $others open.key: chmod 600 open.key" opens --key open.key --iv $iv "$@"
done
try 'on standard input' 0 "luossavin opens: $others standard input" opens --key - --iv $iv "$@" <open.key
holds 'which chmod cannot be told of' not grep -q chmod "$said"
cp open.key 'open; echo.key'
try 'a name that a shell would obey is quoted' 0 "$others open; echo.key: chmod 600 'open; echo.key'" opens --key 'open; echo.key' --iv $iv "$@"
printf '1 %s\n' "$(cat key)" >open.keys
try 'a list of keys' 0 "luossavin replay: $others open.keys: chmod 600 open.keys" replay --keys open.keys "$here/sample/journal"
for mode in 600 400; do
    chmod $mode open.key
    try "but not of mode $mode" 0 '' opens --key open.key --iv $iv "$@"
done
table try <<end
an IV of zeros|0|luossavin seal: warning: the IV is all zeros: take a random one for each file|seal --key key --iv $(printf %032d 0) $label rough out
of 12 bytes|0|warning: the IV is all zeros|seal --key key --iv $(printf %024d 0) $label rough out
the IV is the key|0|luossavin encrypt: warning: the IV is the key, and an IV is no secret|encrypt --mode ctr --key key --iv $(cat key) rough out
end
done_testing
