#!/bin/sh
# Wrong words, names that would do harm, and what is said of the next step.
# shellcheck disable=SC2086 # the words of a command
. "$(dirname "$0")/common.sh"
commands='seal, open, opens, which, encrypt, decrypt, plan, range, shelf, replay, demo or help'

try 'no words' 64 "$tool seal    --key FILE"
try 'help of what there is not' 64 "expected $commands, not \"nosuch\"" help nosuch
silent 'shows nothing'
table try <<end
and so with --help|64|not "nosuch"|nosuch --help
no such command|64|expected $commands, not "sael"|sael
it says what to type|64|For an example: $tool help|sael
no word behind shelf|64|luossavin shelf: expected put, find, open, verify, collect or list, not ""|shelf
another word|64|expected put, find, open, verify, collect or list, not "add"|shelf add team.shelf
SHELF is standard input|64|expected SHELF, the file that is the shelf, not "-"|shelf list -
demo takes no word|64|expected no further word|demo now
edition 65536|64|expected --edition with a whole number from 0 to 65535, not "65536"|opens $* --edition 65536 rough.sealed
an edition out of range|64|expected --edition with a whole number from 0 to 65535, not "65536"|shelf put --unchecked --job 1 --edition 65536 a.shelf rough
a job that is no number|64|expected --job with a whole number from 0 to 4294967295, not "x"|shelf find --job x a.shelf
an IV that is no hex|64|expected --iv with hex digits, two to a byte, not "4g"|opens --key key --iv 4g --job 1 --edition 1 rough.sealed
an IV that is no hex|64|expected --iv with hex digits, two to a byte, not "xy"|shelf open --key key --iv xy --job 4711 a.shelf out
an IV with half a byte|64|not "4c7"|opens --key key --iv 4c7 --job 1 --edition 1 rough.sealed
a number that is none|64|expected --number with a whole number from 1 to 65535, not "x"|replay --key key --number x journal
a mode that there is not|64|expected --mode with cfb, ofb, ctr or cbc, not "gcm"|encrypt --mode gcm --key key --iv $iv rough out
end
silent 'wrong words write nothing to standard output'
for job in 4294967296 99999999999999999999999 -1 12x 0x10 ' 1' 1.0 ''; do
    try "job \"$job\"" 64 "expected --job with a whole number from 0 to 4294967295, not \"$job\"" \
        opens --key key --iv $iv --job "$job" --edition 1 rough.sealed
done
for number in 12x -1 0x10 ' 1' 1.0 '' 99999999999999999999999x; do
    try "number \"$number\"" 64 "expected --number with a whole number from 1 to 65535, not \"$number\"" \
        opens "$@" --number "$number" --edition 1 rough.sealed
done

# What a word of a command must be, and such a word. An option of no kind has no value.
kind() { # WORD
    value=1
    case $1 in
    --key) kind='a file of 16 raw bytes or 32 hex digits' value=key ;;
    --number) kind='a whole number from 1 to 65535' ;;
    --iv) kind='hex digits, two to a byte' value=$iv ;;
    --iv-file) kind='a file of hex digits, two to a byte' ;;
    --job) kind='a whole number from 0 to 4294967295' ;;
    --edition) kind='a whole number from 0 to 65535' ;;
    --editions) kind='a range as 1-3, of whole numbers from 0 to 65535, or one number' ;;
    --candidates) kind='a file that has a job and an edition to a line' ;;
    --mode) kind='cfb, ofb, ctr or cbc' value=ctr ;;
    --offset) kind='a whole number, the place in the text where IN begins' ;;
    --workers) kind='a whole number from 1 to 64' ;;
    --keys) kind="a file that has a key's number and the key to a line" ;;
    --ivs) kind='a file that has a job, an edition and an IV to a line' ;;
    --wait) kind='a whole number of seconds' ;;
    IN) kind='a file to read, or - for standard input' ;;
    OUT) kind='a file to write, or - for standard output' ;;
    SHELF) kind='the file that is the shelf' ;;
    LENGTH) kind='a whole number, how many bytes the text has' ;;
    *) kind='' value='' ;;
    esac
}
options='--key --number --retired --iv --iv-file --job --edition --editions --candidates --mode --offset --decrypt --workers --keys --plain'
options="$options --ivs --unchecked --reference --wait --json --force --forse --worker --ofset"
# The table has each command, the options that it takes and those that it needs, and its files. An option comes twice, at the end, before
# another one, and with or without a value as it should not; what is needed is left out; a word is too many.
while IFS='|' read -r command takes needs files; do
    list=$(echo "$takes" | sed 's/ /, /g; s/\(.*\), /\1 or /')
    for option in $options; do
        kind $option
        case " $takes " in
        *" $option "*) try "$command: $option twice" 64 "expected only once \"$option\"" $command $option $value $option $value ;;
        *) try "$command takes no $option" 64 "luossavin $command: expected $list, not \"$option\"" $command $option 1 && continue ;;
        esac
        if [ -n "$kind" ]; then
            try "$command: $option at the end" 64 "expected $option with $kind, which is missing" $command $option
            try "$command: $option and an option" 64 "expected $option with $kind, not \"--iv=1\"" $command $option --iv=1
        else
            try "$command: $option with a value" 64 "expected $list, not \"$option=1\"" $command $option=1
        fi
    done
    for missing in $needs $files; do
        line=''
        for word in $needs $files; do
            [ $word != $missing ] || case $word in -*) continue ;; *) break ;; esac
            kind $word
            case $word in -*) line="$line $word $value" ;; *) line="$line $value" ;; esac
        done
        kind $missing
        case $missing in -*) with=' with' ;; *) with=, ;; esac
        try "$command: no $missing" 64 "luossavin $command: expected $missing$with $kind, which is missing" $command $line
    done
    try "$command: one word too many" 64 'expected no further word, not "third"' $command $line $value third third
done <<end
seal|--key --number --retired --iv --iv-file --job --edition --force|--key --iv --job --edition|IN OUT
open|--key --number --retired --iv --iv-file --job --edition|--key --iv --job --edition|IN OUT
opens|--key --number --retired --iv --iv-file --job --edition --json|--key --iv --job --edition|IN
which|--key --number --retired --iv --iv-file --job --editions --edition --candidates --json|--key --iv --job --editions|IN
encrypt|--mode --key --number --retired --iv --iv-file --force|--mode --key --iv|IN OUT
decrypt|--mode --key --number --retired --iv --iv-file|--mode --key --iv|IN OUT
plan|--workers|--workers|LENGTH
range|--key --number --retired --iv --iv-file --offset --decrypt --force|--key --iv --offset|IN OUT
shelf put|--key --number --retired --iv --iv-file --job --edition --unchecked --reference --wait|--job --edition|SHELF IN
shelf find|--job --json --force|--job|SHELF
shelf open|--job --key --number --retired --iv --iv-file|--key --iv --job|SHELF OUT
shelf verify|--key --number --retired --ivs|--key --ivs|SHELF
shelf collect|--wait||SHELF
shelf list|--json||SHELF
replay|--keys --key --number --plain --json|--keys|IN
end
table try <<end
which: no key, with candidates|64|expected --key with a file|which --candidates list rough.sealed
which: no IN, with candidates|64|expected IN, a file to read|which --key key --iv $iv --candidates list
replay: a number alone|64|expected --key with a file of 16 raw bytes or 32 hex digits, which is missing|replay --number 7 journal
end

# what to do next
make_editions 4711.1
"$program" shelf put "$@" --edition 1 sound.shelf 4711.1
(umask 077 && printf '2 %s\n' "$(cat key)" >two.keys)
head -c 16777217 /dev/zero >huge
table try <<end
4 says what to do next|4|; \`luossavin which\` says which edition it is|opens $* --edition 2 rough.sealed
19|19|; take the shelf from a backup, or put the sealed files on a new one|shelf list rough
20|20|; \`luossavin shelf list\` shows what it has|shelf put --unchecked --job 4711 --edition 1 sound.shelf 4711.1
21|21|; begin another shelf|shelf put --unchecked --job 1 --edition 1 sound.shelf huge
22|22|; \`luossavin shelf list\` shows what it has|shelf find --job 1 sound.shelf
25|25|which is not among the keys that were given; give that key too|replay --keys two.keys $here/sample/journal
5|5|; split the text, and give each part an IV of its own|seal $* --edition 1 huge out
end

# names that would do harm
bad=$(printf 'a\033[31m\nb"\\c\302\233\303\244') spelled='a\x1b[31m\x0ab\x22\x5cc'
try 'a name with an escape code and an end of line' 66 "cannot read $spelled" opens "$@" --edition 1 "$bad"
holds 'is one line' [ "$(wc -l <"$said")" -eq 1 ]
holds 'without those codes' [ "$(tr -d '\033\233' <"$said" | wc -c)" -eq "$(wc -c <"$said")" ]
holds 'and is shown as it is otherwise' grep -q "$(printf '\303\244')" "$said"
cp rough.sealed "$bad"
try 'in the answer of opens' 0 '' opens "$@" --edition 1 "$bad"
holds 'likewise' grep -qF "$spelled" "$wrote"
try 'in a refusal' 4 "luossavin opens: $spelled" opens "$@" --edition 2 "$bad"
try 'in wrong words' 64 "not \"$spelled" "$bad"
try 'letters that turn a name round are spelled out' 66 'cannot read a\xe2\x80\xaeb\xe2\x81\xa6c\xef\xbb\xbfd\xffe: No such file' \
    opens "$@" --edition 1 "$(printf 'a\342\200\256b\342\201\246c\357\273\277d\377e')"
turned=$(printf 'a\342\200\256b')
run 'in the name of the tool itself' 0 '' env LUOSSAVIN_CALLED="$turned" "$program" help seal
holds 'the name of the product stands for it' grep -qF '  luossavin seal --key' "$wrote"
holds 'and nothing of it is shown' not grep -qF "$turned" "$wrote"
done_testing
