#!/bin/sh
# The longest text, one byte more, and how much time and memory it takes.
# shellcheck disable=SC3045 # dash has ulimit -v
. "$(dirname "$0")/common.sh"

# some 3 ms each on a processor of 2020, most of it the library's; as a script with twelve processes it was 12 to 60
head -c 307200 /dev/urandom >some
"$program" seal "$@" --edition 1 some some.sealed
took=$(perl -e 'system(@ARGV) == 0 or exit 1 for 1 .. 50; my (undef, undef, $user, $system) = times; printf "%d\n", 1000 * ($user + $system)' \
    "$program" opens "$@" --edition 1 some.sealed | tail -n 1)
holds 'opens on 300 KB takes under 20 ms of processor time' [ "$took" -lt 1000 ]
head -c 16777216 /dev/urandom >most
began=$(date +%s)
try 'seal 16 MiB' 0 '' seal "$@" --edition 1 most most.sealed
holds 'in under thirty seconds' [ $(($(date +%s) - began)) -lt 30 ]
gives 'open it' '16 MiB come back' most open "$@" --edition 1 most.sealed most.txt
tells 'ask which edition it is' 'it is found' 'most.sealed opens under job 4711, edition 1' which "$@" --editions 0-1 most.sealed
began=$(date +%s)
answers 'none of 64 editions' 65 'most.sealed opens under none of editions 2 to 65 of job 4711, with this key and IV: look for another key, '\
'another IV or another job, unless the file was changed since' which "$@" --editions 2-65 most.sealed
holds 'it is read once: in under thirty seconds' [ $(($(date +%s) - began)) -lt 30 ]
(ulimit -v 60000 && cat most.sealed | try 'from a pipe, in 60 MB of memory' 0 '' open "$@" --edition 1 - most.txt)
same 'they come back' most most.txt
try 'encrypt 16 MiB with cbc' 0 '' encrypt --mode cbc --key key --iv $iv most most.cbc
(ulimit -v 60000 && try 'decrypt it' 0 '' decrypt --mode cbc --key key --iv $iv most.cbc most.txt)
same 'they come back' most most.txt
printf x >>most
printf x >>most.sealed
longer='5 TooLong: this file is longer than the'
refused 'one byte more' 5 "luossavin seal: most: $longer 16777216 bytes that the cipher takes" seal "$@" --edition 1 most out
refused 'with a retired key' 14 'luossavin seal: most: 14 Retired' seal "$@" --retired --edition 1 most out
refused 'also with cbc' 14 'luossavin encrypt: most: 14 Retired' encrypt --mode cbc --key key --retired --iv $iv most out
refused 'of a sealed file' 5 "luossavin open: most.sealed: $longer 16777232 bytes that the cipher takes" open "$@" --edition 1 most.sealed out
try 'asked which edition it is' 5 "luossavin which: most.sealed: $longer 16777232 bytes" which "$@" --editions 1-2 most.sealed
try 'and with no candidates' 5 'luossavin which: most.sealed: 5 TooLong' which --key key --iv $iv --candidates empty most.sealed
cat most.sealed | try 'and through a pipe' 5 'luossavin which: standard input: 5 TooLong' which "$@" --editions 1-2 -
try 'on standard input' 5 'luossavin seal: standard input: 5 TooLong' seal "$@" --edition 1 - - <most
silent 'nothing is written'
kept
cat most | try 'through a pipe' 5 'luossavin seal: standard input: 5 TooLong' seal "$@" --edition 1 - out
same 'OUT is as it was' kept out
cat most | try 'and on' 5 'luossavin seal: standard input: 5 TooLong' seal "$@" --edition 1 - -
holds 'what went on is not whole, which is said' grep -qxF 'luossavin: what was written to standard output is not whole' "$said"
cat most.sealed | try 'a sealed file, through a pipe' 5 'luossavin open: standard input: 5 TooLong' open "$@" --edition 1 - -
silent 'nothing is written'
done_testing
