#!/bin/sh
# Answers for a program: one JSON object, as another program reads it.
. "$(dirname "$0")/common.sh"
make_editions 4711.1 4711.2
for edition in 1 2; do "$program" shelf put "$@" --edition $edition sound.shelf 4711.$edition; done
bytes=$(wc -c <rough.sealed)
is_json() { perl -MJSON::PP -e 'local $/; decode_json(<>)' "$wrote"; }
# Two checks: the answer is this line, and is JSON.
object() { # NAME STATUS OBJECT WORDS..
    about=$1 wanted=$2 line=$3
    shift 3
    "$program" "$@" --json >"$wrote" 2>"$said"
    holds "$about" [ "$? $(cat "$wrote")" = "$wanted $line" ]
    holds 'which is JSON' is_json
}
# The same of the sample, of which only the end is given.
of_sample() { # NAME STATUS REFUSAL END COMMAND WORDS..
    about=$1 wanted=$2 line='{"command":"'$5'","file":"rough.sealed","status":'$2',"refusal":'$3',"opens":'$4'}'
    shift 4
    object "$about" "$wanted" "$line" "$@" rough.sealed
}
found='true,"job":4711,"edition":1,"key"'
of_sample 'opens' 0 null "$found:null" opens "$@" --edition 1
of_sample 'with a number' 0 null "$found:7" opens "$@" --number 7 --edition 1
of_sample 'refused' 4 '"InvalidTag"' false opens "$@" --edition 2
of_sample 'which' 0 null "$found:null,\"asked\":null" which "$@" --editions 1-2
of_sample 'the one that was asked for' 0 null "$found:null,\"asked\":1" which "$@" --editions 1-2 --edition 1
of_sample 'another' 68 null "$found:null,\"asked\":2" which "$@" --editions 1-2 --edition 2
of_sample 'none' 65 null false which "$@" --editions 2-3
object 'too short' 9 '{"command":"which","file":"empty","status":9,"refusal":"ShortGcm","opens":false}' which "$@" --editions 2-3 empty
object 'shelf list' 0 '{"command":"shelf list","file":"sound.shelf","status":0,"refusal":null,"records":[{"job":4711,"edition":1,'\
'"state":"superseded","bytes":'"$bytes"'},{"job":4711,"edition":2,"state":"current","bytes":'"$bytes"'}]}' shelf list sound.shelf
object 'of an empty one' 0 '{"command":"shelf list","file":"empty","status":0,"refusal":null,"records":[]}' shelf list empty
object 'shelf find' 0 '{"command":"shelf find","file":"sound.shelf","status":0,"refusal":null,"job":4711,"edition":2,"bytes":'"$bytes"'}' \
    shelf find --job 4711 sound.shelf
object 'shelf find, none' 22 '{"command":"shelf find","file":"sound.shelf","status":22,"refusal":"NoCurrent"}' shelf find --job 1 sound.shelf
for name in - /dev/stdout /dev/fd/1; do
    try "with the sealed file on $name" 0 'wrote edition 2 of job 4711' shelf find --json --job 4711 sound.shelf $name
    same 'which is that alone' 4711.2 "$wrote"
done
name=$(printf 'a"\\\n\342\200\256\303\244')
cp rough.sealed "$name"
object 'a name that is spelled out' 0 '{"command":"opens","file":"a\u0022\u005c\u000a\u202eä","status":0,"refusal":null,"opens":'"$found:null}" \
    opens "$@" --edition 1 "$name"
cp "$here/sample/journal" journal
try 'replay' 0 '' replay --json --key key journal
holds 'which is JSON' is_json
holds 'with its counts' grep -q '^{"command":"replay","file":"journal","status":0,"refusal":null,"records":5,"mode_cfb":0,.*"mode_gcm":3,'\
'"mode_unknown":1,.*"answer_26":0,"bytes_in":.*"refused_byte":0}$' "$wrote"
{ cat journal && printf T; } >cut.journal
try 'refused' 23 '23 BadRecord: record 6, which begins at byte' replay --json --key key cut.journal
holds 'is one object' [ "$(wc -l <"$wrote")" -eq 1 ]
holds 'which is JSON' is_json
holds 'and says so' grep -q '"status":23,"refusal":"BadRecord","records":5,.*"refused_record":6,' "$wrote"
try '--plain and --json' 64 'expected --plain or --json, not both: "--json"' replay --plain --json --key key journal
tells 'the sample as a table' 'agrees' 'all 5 records agree' replay --key key journal
full 'an object that cannot be written' opens "$@" --json --edition 1 rough.sealed
done_testing
