#compdef luossavin
# Completion for zsh, installed as _luossavin in a folder of $fpath.
_luossavin() {
    local -a key iv label mode
    key=('--key[file of the key]:file:_files' '--number[number of the key]:number:' '--retired[the key is retired]')
    iv=('(--iv-file)--iv[IV in hex digits]:hex digits:' '(--iv)--iv-file[file of the IV]:file:_files')
    label=('--job[job]:number:' '--edition[edition]:number:')
    mode=('--mode[mode]:mode:(cfb ofb ctr cbc)')
    if (( CURRENT == 2 )); then
        compadd seal open opens which encrypt decrypt plan range shelf replay demo help --help --version
        return
    fi
    local command=$words[2]
    if [[ $command == shelf ]]; then
        if (( CURRENT == 3 )); then
            compadd put find open verify collect list
            return
        fi
        command="shelf $words[3]"
        (( CURRENT-- ))
        shift words
    fi
    (( CURRENT-- ))
    shift words
    case $command in
    seal) _arguments $key $iv $label '--force[write to a terminal too]' '1:IN:_files' '2:OUT:_files' ;;
    open) _arguments $key $iv $label '1:IN:_files' '2:OUT:_files' ;;
    opens) _arguments $key $iv $label '--json[answer with an object]' '1:IN:_files' ;;
    which) _arguments $key $iv $label '--editions[range of editions]:range:' '--candidates[file of jobs and editions]:file:_files' \
        '--json[answer with an object]' '1:IN:_files' ;;
    encrypt) _arguments $mode $key $iv '--force[write to a terminal too]' '1:IN:_files' '2:OUT:_files' ;;
    decrypt) _arguments $mode $key $iv '1:IN:_files' '2:OUT:_files' ;;
    plan) _arguments '--workers[number of workers]:number:' '1:LENGTH:' ;;
    range) _arguments $key $iv '--offset[where IN begins]:number:' '--decrypt[decrypt]' '--force[write to a terminal too]' \
        '1:IN:_files' '2:OUT:_files' ;;
    'shelf put') _arguments $key $iv $label '--unchecked[do not ask whether IN opens]' '--reference[put the IV and the tag of IN]' '--wait[seconds to wait]:number:' \
        '1:SHELF:_files' '2:IN:_files' ;;
    'shelf find') _arguments '--job[job]:number:' '--json[answer with an object]' '--force[write to a terminal too]' \
        '1:SHELF:_files' '2:OUT:_files' ;;
    'shelf open') _arguments '--job[job]:number:' $key $iv '1:SHELF:_files' '2:OUT:_files' ;;
    'shelf verify') _arguments $key '--ivs[file of IVs]:file:_files' '1:SHELF:_files' ;;
    'shelf collect') _arguments '--wait[seconds to wait]:number:' '1:SHELF:_files' ;;
    'shelf list') _arguments '--json[answer with an object]' '1:SHELF:_files' ;;
    replay) _arguments '(--key --number)--keys[file of keys]:file:_files' '--key[file of the key]:file:_files' '--number[number of the key]:number:' \
        '--plain[lines for a script]' '--json[answer with an object]' '1:IN:_files' ;;
    help) compadd seal open opens which encrypt decrypt plan range shelf replay ;;
    esac
}
_luossavin "$@"
