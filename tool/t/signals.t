#!/bin/sh
# Runs that are killed: OUT is the old file or the new one, and nothing is beside it.
. "$(dirname "$0")/common.sh"
set -- "$@" --edition 1
kept

mkfifo idle
for signal in TERM.143 INT.130 HUP.129; do
    # a shell has what it runs in the background ignore INT
    env --default-signal=INT "$program" seal "$@" - out <>idle >"$wrote" 2>"$said" &
    await is_running $!
    kill -${signal%.*} $!
    wait $! 2>/dev/null
    judge "killed by ${signal%.*} while it reads" $? ${signal#*.} ''
    same 'OUT is as it was' kept out
    holds 'nothing is left beside it' not found . -name '*luossavin-*'
done

# Killed beyond help at any moment of writing and linking. Only where an old OUT is replaced there is an instant in which the new one, whole
# by then, has another name.
head -c 4000000 /dev/urandom >large
"$program" seal "$@" large large.sealed
mkdir killed
began=$(date +%s%N)
"$program" open "$@" large.sealed killed/out
took=$((($(date +%s%N) - began) / 1000000))
left=0 instants=0 broken=0 done=0
for kills in $(seq 60); do
    cp kept killed/out
    [ $((kills % 3)) -ne 0 ] || rm killed/out
    "$program" open "$@" large.sealed killed/out 2>"$said" &
    sleep "$(printf '%d.%03d' $((took * (kills % 15) / 8000)) $((took * (kills % 15) / 8 % 1000)))"
    kill -9 $! 2>/dev/null
    wait $! 2>/dev/null
    [ ! -e killed/out ] || cmp -s killed/out kept || cmp -s killed/out large || broken=$((broken + 1))
    ! cmp -s killed/out large || done=$((done + 1))
    for name in killed/.luossavin-*; do
        [ -e "$name" ] || continue
        if [ $((kills % 3)) -ne 0 ] && cmp -s "$name" large; then instants=$((instants + 1)); else left=$((left + 1)); fi
        rm "$name"
    done
done
holds 'killed beyond help, 60 times: OUT is whole each time' [ $broken -eq 0 ]
holds 'nothing is left beside it' [ $left -eq 0 ]
holds 'nor in more than an instant' [ $instants -le 2 ]
holds 'nor anything else' not found killed -type f ! -name out
holds 'some were killed before the end, and some were not' [ $done -gt 0 -a $done -lt 60 ]
done_testing
