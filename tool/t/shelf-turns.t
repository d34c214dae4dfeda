#!/bin/sh
# Two runs at once on a shelf: the lock, and what a run that waits for it has in its memory.
# shellcheck disable=SC2086 # the words of a command
. "$(dirname "$0")/common.sh"
set -- --key key --iv $iv
make_editions 4711.1 4713.1
put='shelf put --unchecked'

for edition in $(seq 10); do
    "$program" $put --job 1 --edition $edition shelf 4711.1 &
    "$program" $put --job 2 --edition $edition shelf 4711.1 || : >failed
    wait $! || : >failed
done
holds 'both are done, ten times over' [ ! -e failed ]
try 'all of it is there' 0 '' shelf list shelf
holds 'twenty editions' [ "$(grep -c 'current\|superseded' "$wrote")" -eq 20 ]
holds 'two of them current' [ "$(grep -c ' 10  current' "$wrote")" -eq 2 ]
holds 'no lock is left' [ ! -e shelf.lock ]

# somebody who has a lock until it is let go
hold() { # COMMAND..: takes the lock, and then waits
    "$@" >/dev/null 6>&- &
    holder=$!
}
let_go() { kill $holder && wait $holder 2>/dev/null; }
lock() { hold sh -c 'exec 7>>shelf.lock && flock 7 && exec sleep "$1"' sh "$1" && await locked; } # SECONDS
locked() { [ -e shelf.lock ] && ! flock -n shelf.lock true; }
lock 60
"$program" shelf collect shelf 2>waiting &
second=$!
sleep 0.5
holds 'the second waits' kill -0 $second
let_go
holds 'until the first is gone' wait $second
try 'and then collects' 0 '' shelf list shelf
holds 'two are left' [ "$(grep -c current "$wrote")" -eq 2 ]
holds 'and no lock' [ ! -e shelf.lock ]
lock 60
"$program" shelf collect shelf 2>"$said" &
await grep -q waiting "$said"
let_go
wait $!
judge 'it says that it waits, terminal or not' $? 0 'luossavin shelf collect: shelf: waiting for another run, which is changing it'
lock 60
cp shelf before
try 'and gives up' 66 'luossavin shelf put: shelf: another run has held shelf.lock for 1 seconds; nothing was changed: try again, '\
'or wait longer with --wait SECONDS' $put --job 7 --edition 1 --wait 1 shelf 4711.1
try 'at once where it is to' 66 'another run has held shelf.lock for 0 seconds' shelf collect --wait=0 shelf
same 'the shelf is as it was' before shelf
try 'wait takes a number' 64 'expected --wait with a whole number of seconds, not "x"' shelf collect --wait x shelf
try 'find waits for nobody' 0 '' shelf find --job 1 shelf
let_go
try "a lock that is left is in nobody's way" 0 '' $put --job 7 --edition 1 shelf 4711.1
holds 'and is removed' [ ! -e shelf.lock ]
# whoever can only read takes locks that keep nobody waiting
hold sh -c 'exec 7<. 8<shelf && flock 7 && flock 8 && exec sleep 60'
await sh -c '! flock -n . true && ! flock -n shelf true'
try 'locks of a reader stop nothing' 0 '' $put --job 8 --edition 1 --wait 0 shelf 4711.1
let_go
hold perl -e 'use Fcntl; open F, "<", "shelf" or die; my $lock = pack("s s x4 q q l x4", F_RDLCK, 0, 0, 0, 0);
    fcntl(F, F_SETLK, $lock) or die; open G, ">", "ready" or die; sleep 60'
holds 'a reader has a read lock' await [ -e ready ]
try 'nor does a read lock' 0 '' $put --job 9 --edition 1 --wait 0 shelf 4711.1
let_go

# what has the lock's name and is none is somebody's file
cp shelf other.shelf
somebodys() { # WHAT
    for command in 'put --unchecked --job 9 --edition 9 other.shelf 4711.1' 'collect other.shelf'; do
        left "${command%% *}: SHELF.lock is $1" 66 'cannot write other.shelf: other.shelf.lock is there, and is no lock of a shelf' shelf $command
    done
}
echo precious >precious
cp -p precious other.shelf.lock
somebodys 'a file with something in it'
same 'which is as it was' precious other.shelf.lock
holds 'with its permissions' [ "$(stat -c %a other.shelf.lock)" = "$(stat -c %a precious)" ]
rm other.shelf.lock && mkdir other.shelf.lock
somebodys 'a folder'
rmdir other.shelf.lock && mkfifo other.shelf.lock
somebodys 'a pipe'
rm other.shelf.lock && ln -s precious other.shelf.lock
somebodys 'a link'
holds 'which is as it was' [ "$(cat other.shelf.lock)" = precious ]

# Keys and texts are wiped. A put that waits for its turn has asked its question. What it can write of its memory is looked at: the
# sealed bytes are there, which it is about to put, and neither the key nor the text is.
spelled() { od -An -v -tx1 | tr -d ' \n'; }
memory() { # PROCESS
    while read -r range rights _; do
        case $rights in rw*) ;; *) continue ;; esac
        from=${range%-*} to=${range#*-}
        dd if="/proc/$1/mem" bs=4096 skip=$((0x$from / 4096)) count=$(((0x$to - 0x$from) / 4096)) status=none
    done <"/proc/$1/maps"
}
lock 60
try 'what does not open does not wait for its turn' 4 '4 InvalidTag' shelf put "$@" --job 4713 --edition 1 shelf - <rough.sealed
"$program" shelf put "$@" --job 4713 --edition 1 shelf 4713.1 >"$wrote" 2>"$said" &
run=$!
await grep -q waiting "$said"
memory $run 2>/dev/null | spelled >memory
: >"$said"
if [ -s memory ]; then
    holds 'the sealed file is in memory' grep -qF "$(head -c 64 4713.1 | spelled)" memory
    holds 'the key is not' not grep -qF "$(cat key)" memory
    holds 'nor as it is spelled in its file' not grep -qF "$(head -c 32 key | spelled)" memory
    for place in 0 700 1500; do
        holds "nor the text, from byte $((place + 1)) on" not grep -qF "$(stretch rough $place 32 | spelled)" memory
    done
else
    skip 'what is in memory' 'it takes root to look'
fi
cp 4713.1 wanted
cp rough 4713.1
let_go
wait $run
judge 'IN is changed while put waits' $? 0 ''
try 'what is put is what was asked about' 0 'wrote edition 1 of job 4713' shelf find --job 4713 shelf out
same 'and no other bytes' wanted out
done_testing
