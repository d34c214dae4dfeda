#!/bin/sh
# The examples of help and the demo, as they stand, by a name that a shell has to be told of, too.
. "$(dirname "$0")/common.sh"
command -v openssl >/dev/null || skip_all 'there is no openssl'
ln -s "$tool" "$room/log/the tool's link"

example() { "$name" help "$1" | sed -n '/^Example/,/^[a-zO]/s/^  //p' >example; } # COMMAND
for name in "$tool" "$room/log/the tool's link"; do
    for command in seal open opens which encrypt decrypt; do
        case $command in opens) wanted=4 ;; which) wanted=68 ;; *) wanted=0 ;; esac
        example $command
        sh example >"$wrote" 2>"$said"
        status=$?
        holds "the example of $command" [ -s example -a $status -eq $wanted ]
    done
    same 'what it shows is the text' rough.txt "$wrote"
    mv rough.iv before.iv
    cp team.key before.key
    example seal
    sh example
    holds 'and it makes a new IV' not cmp -s rough.iv before.iv
    rm -f team.shelf
    example shelf
    run 'the example of shelf' 0 'opened edition 2 of job 4711' sh example
    same 'gives the text' final.txt opened.txt
    holds 'that of shelf asks first, and of all' grep -qxF 'edition 2 of job 4711: opens' "$wrote"
    example replay
    run 'the example of replay' 0 '' sh example
    holds 'whose record agrees' grep -qxF 'the one record agrees' "$wrote"
    for command in plan range; do
        example $command
        run "the example of $command" 0 '' sh example
    done
    holds 'that of plan is for four workers' [ "$(wc -l <text.plan)" -eq 4 ]
    same 'no example overwrites a key' before.key team.key
    holds 'which others cannot read' [ "$(stat -c %a team.key)" = 600 ]
    "$program" encrypt --mode ctr --key team.key --iv-file text.iv text.txt whole.ctr
    same 'that of range writes what one worker writes' whole.ctr text.ctr
    sed '/openssl/d; /^seq/d; s/text\.txt/text.ctr/g; s/ range / range --decrypt /; s/>text.ctr/>text.back/' example >back
    run 'and so with --decrypt' 0 '' sh back
    same 'it gives the text back' text.txt text.back
    rm text.ctr
    if parallel --version 2>/dev/null | grep -q 'GNU parallel'; then
        "$name" help range | sed -n '/^The same under GNU parallel/,$s/^  //p' >example
        run 'the example under GNU parallel' 0 '' sh -c 'sh example 2>/dev/null' # where it may ask for a citation
        same 'writes the same' whole.ctr text.ctr
    else
        skip 'the example under GNU parallel' 'there is no GNU parallel'
    fi
done

run 'the demo' 0 '' "$tool" demo
holds 'with the commands as they are typed' grep -q "^  $tool seal --key key --iv [0-9a-f]* --job 4711 --edition 1 rough.txt rough.sealed\$" "$wrote"
holds 'and the text' grep -qF 'Ruth Anne Meridian' "$wrote"
holds 'and what is refused' grep -qF '4 InvalidTag: this file was not sealed under job 4711, edition 2' "$wrote"
full 'a demo that cannot be shown' demo
done_testing
