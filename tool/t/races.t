#!/bin/sh
# Runs that race with each other, or with whoever writes IN.
. "$(dirname "$0")/common.sh"
set -- "$@" --edition 1

# two runs that write one new OUT
head -c 3000000 /dev/zero >first
tr '\0' x <first >second
for name in first second; do "$program" seal "$@" $name $name.sealed; done
meanwhile='cannot write one: another run has written it meanwhile, and it is left as it is'
met=0 wrong=0
for _ in $(seq 20); do
    rm -f one
    "$program" open "$@" first.sealed one 2>first.said &
    "$program" open "$@" second.sealed one 2>second.said
    b=$?
    wait $!
    case $?.$b in
    0.0) cmp -s one first || cmp -s one second ;; # one after the other
    0.66) met=$((met + 1)) && cmp -s one first && grep -qF "$meanwhile" second.said ;;
    66.0) met=$((met + 1)) && cmp -s one second && grep -qF "$meanwhile" first.said ;;
    *) false ;;
    esac || wrong=$((wrong + 1))
done
holds 'twenty times one of them wins, and the other says so' [ $wrong -eq 0 ]
holds 'some did meet' [ $met -gt 0 ]

# whoever can write IN, and has no key, races with the reader
head -c 2000000 /dev/zero | tr '\0' n >signed
"$program" seal "$@" signed signed.sealed
{ head -c 1000000 signed.sealed && printf XXXXXXXX && tail -c +1000009 signed.sealed; } >forged.sealed
cp signed.sealed racing
while [ ! -e stop ]; do
    for name in forged signed; do dd if=$name.sealed of=racing bs=100000 conv=notrunc status=none; done
done &
forged=0 opened=0 refused=0
for _ in $(seq 60); do
    "$program" open "$@" racing - >out 2>"$said"
    case $? in
    0) opened=$((opened + 1)) && cmp -s out signed ;;
    4) refused=$((refused + 1)) && [ ! -s out ] ;;
    esac || forged=$((forged + 1))
done
: >stop
wait
holds 'of 60 races none passes forged text on' [ $forged -eq 0 ]
holds 'and each opens the file or refuses it' [ $((opened + refused)) -eq 60 ]
holds 'some of them met the forged file' [ $refused -gt 0 ]
done_testing
