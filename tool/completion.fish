# Completion for fish, installed as luossavin.fish in its folder of completions.
set -l commands seal open opens which encrypt decrypt plan range shelf replay demo help
complete -c luossavin -n __fish_use_subcommand -f -a "$commands --version"
complete -c luossavin -n '__fish_seen_subcommand_from help' -f -a "$commands"
complete -c luossavin -n '__fish_seen_subcommand_from shelf; and not __fish_seen_subcommand_from put find open verify collect list' -f -a 'put find open verify collect list'

complete -c luossavin -n '__fish_seen_subcommand_from seal open opens which encrypt decrypt range replay put verify' -l key -r -d 'file of the key'
complete -c luossavin -n '__fish_seen_subcommand_from seal open opens which encrypt decrypt range replay put verify' -l number -x -d 'number of the key'
complete -c luossavin -n '__fish_seen_subcommand_from seal open opens which encrypt decrypt range put verify' -l retired -d 'the key is retired'
complete -c luossavin -n '__fish_seen_subcommand_from seal open opens which encrypt decrypt range put' -l iv -x -d 'IV in hex digits'
complete -c luossavin -n '__fish_seen_subcommand_from seal open opens which encrypt decrypt range put' -l iv-file -r -d 'file of the IV'
complete -c luossavin -n '__fish_seen_subcommand_from seal open opens which put find' -l job -x -d 'job'
complete -c luossavin -n '__fish_seen_subcommand_from seal opens which put' -l edition -x -d 'edition'
complete -c luossavin -n '__fish_seen_subcommand_from open; and not __fish_seen_subcommand_from shelf' -l edition -x -d 'edition'
complete -c luossavin -n '__fish_seen_subcommand_from seal encrypt range find' -l force -d 'write to a terminal too'
complete -c luossavin -n '__fish_seen_subcommand_from opens which replay find list' -l json -d 'answer with an object'
complete -c luossavin -n '__fish_seen_subcommand_from which' -l editions -x -d 'range of editions'
complete -c luossavin -n '__fish_seen_subcommand_from which' -l candidates -r -d 'file of jobs and editions'
complete -c luossavin -n '__fish_seen_subcommand_from encrypt decrypt' -l mode -x -a 'cfb ofb ctr cbc' -d 'mode'
complete -c luossavin -n '__fish_seen_subcommand_from plan' -l workers -x -d 'number of workers'
complete -c luossavin -n '__fish_seen_subcommand_from range' -l offset -x -d 'where IN begins'
complete -c luossavin -n '__fish_seen_subcommand_from range' -l decrypt -d 'decrypt'
complete -c luossavin -n '__fish_seen_subcommand_from replay' -l keys -r -d 'file of keys'
complete -c luossavin -n '__fish_seen_subcommand_from replay' -l plain -d 'lines for a script'
complete -c luossavin -n '__fish_seen_subcommand_from put' -l unchecked -d 'do not ask whether IN opens'
complete -c luossavin -n '__fish_seen_subcommand_from put' -l reference -d 'put the IV and the tag of IN'
complete -c luossavin -n '__fish_seen_subcommand_from put collect' -l wait -x -d 'seconds to wait'
complete -c luossavin -n '__fish_seen_subcommand_from verify' -l ivs -r -d 'file of IVs'
