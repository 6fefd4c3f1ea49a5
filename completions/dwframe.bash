# Completion of dwframe for bash.

_dwframe()
{
    local word=${COMP_WORDS[COMP_CWORD]} before=${COMP_WORDS[COMP_CWORD - 1]} subcommand='' options i
    [[ $word == = ]] && word=''
    [[ $before == = ]] && before=${COMP_WORDS[COMP_CWORD - 2]}
    for ((i = 1; i < COMP_CWORD; i++)); do
        [[ ${COMP_WORDS[i]} == -* ]] || { subcommand=${COMP_WORDS[i]}; break; }
    done
    COMPREPLY=()
    case $before in
        --size) mapfile -t COMPREPLY < <(compgen -W '4 8' -- "$word"); return ;;
        --order) mapfile -t COMPREPLY < <(compgen -W 'little big' -- "$word"); return ;;
        --default) mapfile -t COMPREPLY < <(compgen -W 'same undefined' -- "$word"); return ;;
        --steps | --start | --cap) return ;;
    esac
    options='--size --order --help'
    case $subcommand in
        '' | help) options='--help --version' ;;
        expr) options+=' --frame' ;;
        eval) options+=' --steps --start' ;;
        unwind) options+=' --default --steps' ;;
        normal) options+=' --cap' ;;
    esac
    case $subcommand:$word in
        *:-*) mapfile -t COMPREPLY < <(compgen -W "$options" -- "$word") ;;
        :* | help:*) mapfile -t COMPREPLY < <(compgen -W 'check rows at entries expr eval unwind normal same cost help' -- "$word") ;;
        *) mapfile -t COMPREPLY < <(compgen -f -- "$word") ;;
    esac
}

complete -o filenames -F _dwframe dwframe
