# Completes the words of eddyql in bash.
_eddyql() {
    local word=${COMP_WORDS[COMP_CWORD]} before=${COMP_WORDS[COMP_CWORD - 1]}
    COMPREPLY=()
    case $before in
        --policy) mapfile -t COMPREPLY < <(compgen -W 'lottery pressure greedy script' -- "$word") ;;
        --encoding) mapfile -t COMPREPLY < <(compgen -W 'latin1 windows-1252 utf-16' -- "$word") ;;
        --null) mapfile -t COMPREPLY < <(compgen -W 'N/A NA NULL null - nan' -- "$word") ;;
        --svg) mapfile -t COMPREPLY < <(compgen -f -- "$word") ;;
        --workers | --seed | --route | --cache | --index | --lookup | --remote | --demo | --type | --separator | -c) ;;
        *)
            if [[ $word == -* ]]; then
                mapfile -t COMPREPLY < <(compgen -W '-c -h -v --cache --decimal-comma --demo --encoding --explain-faults --help --index --json --lookup
                    --markdown --no-header --null --policy --ragged --remote --rename --route --seed --separator --shared --svg --table --tally
                    --tsv --type --version --workers' -- "$word")
            else
                # Behind a table's name and `=`, which bash takes for a word of its own, comes a file.
                [[ $word != = ]] || word=''
                mapfile -t COMPREPLY < <(compgen -f -- "$word"; [[ $COMP_CWORD != 1 ]] || compgen -W 'tables show explain help' -- "$word")
            fi
            ;;
    esac
}
complete -o filenames -F _eddyql eddyql
