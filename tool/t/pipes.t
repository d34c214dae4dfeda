#!/bin/sh
# Pipes, piece by piece; one file for IN and OUT.
. "$(dirname "$0")/common.sh"
make_modes
set -- "$@" --edition 1

"$program" seal "$@" - - <rough | cat | "$program" open "$@" - - | cat >out
same 'through pipes on both ends' rough out
try 'a changed file on standard input' 4 'luossavin open: standard input: 4 InvalidTag' open "$@" - - <changed
silent 'nothing is written before the tag is settled'
cp rough both
gives 'seal a file in its own place' 'it is the sealed file' rough.sealed seal "$@" both both
gives 'open it in its own place' 'it is the text' rough open "$@" both both
"$program" seal "$@" both - >>both 2>"$said"
judge 'standard output behind its own text' $? 66 'standard output is a file that is named elsewhere on the command line'
"$program" seal "$@" - - <both >>both 2>"$said"
judge 'and on standard input' $? 66 'standard output is a file that is named elsewhere on the command line'
same 'it is as it was' rough both
# a reader that goes away ends the run, as with other tools
head -c 1000000 /dev/zero >zeros
"$program" seal "$@" zeros zeros.sealed
for words in 'open zeros.sealed' 'seal zeros'; do
    { "$program" "${words% *}" "$@" "${words#* }" - 2>"$said"; echo $? >ended; } | head -c 1 >"$wrote"
    await [ -s ended ]
    judge "a reader that goes away: ${words% *}" "$(cat ended)" 141 ''
    rm ended
done

# what comes through a pipe goes on at once; it is waited for here before the input goes on
mkfifo live passed pipe
"$program" seal "$@" - - <live >passed &
cat passed >sofar &
exec 7>live
head -c 100 rough >&7
holds 'what was sealed is there before the input ends' await sh -c '[ "$(wc -c <sofar)" -eq 100 ]'
cp sofar before
tail -c +101 rough >&7
exec 7>&-
wait
same 'and is the front of the sealed file' rough.sealed sofar
holds 'as it was then' cmp -n 100 before rough.sealed
for mode in cfb ofb ctr cbc; do
    pieces rough 7 907 | try "$mode, cut anywhere" 0 '' encrypt --mode $mode --key key --iv $iv - -
    same "$mode, as in one piece" text.$mode "$wrote"
    pieces text.$mode 17 | try 'and back' 0 '' decrypt --mode $mode --key key --iv $iv - -
    same 'is the text' rough "$wrote"
done
pieces rough.sealed 5 | gives 'open from a pipe' 'gives the text' rough open "$@" - out
head -c 1552 text.ctr >cbc-of-ctr
kept
for name in out -; do
    cat changed | try "a changed file from a pipe, to $name" 4 'luossavin open: standard input: 4 InvalidTag' open "$@" - $name
    silent 'writes nothing'
    cat cbc-of-ctr | try "no padding from a pipe, to $name" 3 'luossavin decrypt: standard input: 3 InvalidLastU8' \
        decrypt --mode cbc --key key --iv $iv - $name
    silent 'writes nothing'
done
same 'OUT is as it was' kept out
(
    export TMPDIR="$room/nowhere"
    cat rough.sealed | gives 'a pipe is kept in no file' 'it gives the text' rough open "$@" - out
    cat rough.sealed | try 'opens keeps nothing aside' 0 '' opens "$@" -
    kept
    gives 'nor does open' 'it gives the text' rough open "$@" - out <rough.sealed
)
{ printf abc && cat rough.sealed; } >behind
{
    dd bs=1 count=3 status=none of=/dev/null
    gives 'standard input is read from where it stands' 'and from nowhere else' rough open "$@" - out
} <behind
kept
"$program" open "$@" - out <live >"$wrote" 2>"$said" &
exec 7>live
head -c 100 rough.sealed >&7
sleep 0.5
holds 'what is read is kept in no file' not found "$TMPDIR" -type f
kill $!
wait $! 2>/dev/null
judge 'killed while it reads a pipe' $? 143 ''
exec 7>&-
same 'OUT is as it was' kept out
# IN is read once: what is written is what the tag was settled on, whatever becomes of IN
cp rough.sealed changing
"$program" open "$@" changing pipe >"$wrote" 2>"$said" &
await is_running $!
sleep 1
cp changed changing
timeout 20 cat pipe >out
wait $!
judge 'IN is changed while the text waits for its reader' $? 0 ''
same 'the text is that of the tag' rough out
done_testing
