#!/bin/sh
# Help, the manual page, and what shells complete.
# shellcheck disable=SC2086 # the words of a command
. "$(dirname "$0")/common.sh"
help=$here/rust/tool/help
commands='seal open opens which encrypt decrypt plan range replay'

for words in help --help -h 'help seal' '--help seal' 'seal --help' 'open -h' 'help opens' 'help which' 'which -h' 'help encrypt' \
    'help decrypt' 'help plan' 'plan -h' 'help range' 'range --help' 'help shelf' 'shelf put --help' 'help replay' 'replay -h'; do
    try "$words" 0 '' $words
    holds 'it has a command to paste, with the name that was called' grep -qF "  $tool " "$wrote"
done
tells 'help of one command is not the whole' 'but its own page' "$tool seal --key FILE --iv-file FILE --job N --edition N IN OUT" help seal
full 'help to a full device' help
for place in "$help/luossavin.txt" "$here/README.md"; do
    holds "${place##*/} says how to make a key and an IV" grep -qF 'openssl rand -hex 16' "$place"
    holds "${place##*/} says what an IV used twice costs" grep -qF 'give each other away' "$place"
done
for place in "$help"/*.txt "$here/README.md"; do
    case $place in */plan.txt | */replay.txt) continue ;; esac # which have no key, and none that is retired
    holds "${place##*/} says what a retired key is" [ "$(grep -o -e --number -e --retired "$place" | sort -u | wc -l)" -eq 2 ]
done
holds 'help says what is so of OUT' grep -qF 'OUT is the old file or the new one, whole' "$help/luossavin.txt"
holds 'and of a run that is killed' grep -qF 'a run that is killed leaves nothing beside it' "$help/luossavin.txt"
"$here/tool/man" >page # if not: run tool/man >tool/luossavin.1
same 'the manual page is made of this help' page "$here/tool/luossavin.1"
if command -v man >/dev/null && command -v groff >/dev/null; then
    man -l "$here/tool/luossavin.1" >shown 2>&1
    holds 'man shows it' grep -q 'EXIT STATUS' shown
fi

# The options that a shell offers for a command are those of its page of help.
options() { sed -n 's/^  \(--[a-z-]*\) .*/\1/p' "$@" | sort -u; } # PAGE..
offered() { # WORDS..: what bash offers for the last of them
    bash -c '. "$1" && shift && COMP_WORDS=(luossavin "$@") && COMP_CWORD=$# && _luossavin && printf "%s\n" "${COMPREPLY[@]}"' \
        bash "$here/tool/completion.bash" "$@" | sort -u
}
if command -v bash >/dev/null; then
    for command in $commands; do
        options "$help/$command.txt" >wanted
        offered $command - >got
        same "bash completes the options of $command" wanted got
    done
    options "$help/shelf.txt" >wanted
    for command in put find open verify collect list; do offered shelf $command -; done | sort -u >got
    same 'bash completes the options of shelf' wanted got
    holds 'and its commands' [ "$(offered shelf '' | tr '\n' ' ')" = 'collect find list open put verify ' ]
    holds 'and the commands' [ "$(offered op | tr '\n' ' ')" = 'open opens ' ]
    for shell in zsh fish; do
        options "$help"/*.txt | while read -r option; do
            grep -q -e "$option\[" -e "-l ${option#--} " "$here/tool/completion.$shell" || echo "$option"
        done >missing
        holds "and $shell has every option" [ ! -s missing ]
    done
    if command -v fish >/dev/null; then
        for command in $commands 'shelf put' 'shelf find' 'shelf open' 'shelf verify' 'shelf collect' 'shelf list'; do
            offered $command - >wanted
            fish -c "source '$here/tool/completion.fish'; complete -C 'luossavin $command --'" | cut -f 1 | grep '^--' | sort -u >got
            same "fish completes the options of $command" wanted got
        done
    fi
fi
done_testing
