# Completion for bash, which finds it by itself where the tool is installed. For a checkout put a line `. PATH/tool/completion.bash` into
# ~/.bashrc, with the path to this file.
_luossavin() {
    local word=${COMP_WORDS[COMP_CWORD]} before=${COMP_WORDS[COMP_CWORD - 1]} options=''
    COMPREPLY=()
    if [ "$COMP_CWORD" -eq 1 ]; then
        mapfile -t COMPREPLY < <(compgen -W 'seal open opens which encrypt decrypt plan range shelf replay demo help --help --version' -- "$word")
        return
    fi
    case ${COMP_WORDS[1]} in
    seal) options='--key --number --retired --iv --iv-file --job --edition --force' ;;
    open) options='--key --number --retired --iv --iv-file --job --edition' ;;
    opens) options='--key --number --retired --iv --iv-file --job --edition --json' ;;
    which) options='--key --number --retired --iv --iv-file --job --editions --edition --candidates --json' ;;
    encrypt) options='--mode --key --number --retired --iv --iv-file --force' ;;
    decrypt) options='--mode --key --number --retired --iv --iv-file' ;;
    plan) options='--workers' ;;
    range) options='--key --number --retired --iv --iv-file --offset --decrypt --force' ;;
    shelf)
        case ${COMP_WORDS[2]} in
        put) options='--key --number --retired --iv --iv-file --job --edition --unchecked --reference --wait' ;;
        find) options='--job --json --force' ;;
        open) options='--job --key --number --retired --iv --iv-file' ;;
        verify) options='--key --number --retired --ivs' ;;
        collect) options='--wait' ;;
        list) options='--json' ;;
        esac
        ;;
    replay) options='--keys --key --number --plain --json' ;;
    help | --help) options='seal open opens which encrypt decrypt plan range shelf replay' ;;
    esac
    case $before in
    --mode) options='cfb ofb ctr cbc' ;;
    --number | --iv | --job | --edition | --editions | --workers | --offset | --wait) options='' ;;
    help | --help) ;;
    shelf) options='put find open verify collect list' ;;
    *) case $word in -*) ;; *) options='' ;; esac ;;
    esac
    # with none of these bash completes the names of files
    mapfile -t COMPREPLY < <(compgen -W "$options" -- "$word")
}
complete -o default -F _luossavin luossavin ./luossavin
