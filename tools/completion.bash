# Completes the words of lolamon and of the tools beside it in bash: commands, options, their values, and files.

# Tells the options of the command $1. A tool, which is called as $2, tells its own with --help: in its usage, and where
# lines begin with one.
_lolamon_options() {
    case $1 in
        lolamon)
            case ${COMP_WORDS[1]} in
                replay) echo --show --start ;;
                snapshot) echo --start --resume ;;
                *) echo --show --workers --start --resume --in-turns --intake ;;
            esac
            ;;
        *) "$2" --help 2>/dev/null | sed -n '/^lolamon-/p; /^  --/p' | grep -o -e '--[a-z][a-z-]*' | sort -u ;;
    esac
}

# Tells those of them that are not there yet, or may come several times. A start and a state do not stand in one command.
_lolamon_free_options() {
    local used=" ${COMP_WORDS[*]:0:COMP_CWORD} " option
    for option in $(_lolamon_options "$@"); do
        if [[ $1 == lolamon && $option$used == @(--start*" --resume "*|--resume*" --start "*) ]]; then continue; fi
        if [[ $used != *" $option "* || $option == --@(scale|thousands|rename|fail-on) ]]; then echo "$option"; fi
    done
}

# Tells values of the option $1, none of one whose value nobody can guess. The status is 1 where a file follows, or no value.
_lolamon_values() {
    case $1 in
        --show) echo triggers outputs ;;
        --intake) echo lock queue ;;
        --workers | --jobs) echo 1 2 4 8 16 32 64 ;;
        --unit) echo s ms us ns ;;
        --commands) echo parallel slurm ;;
        --rate) echo 1Hz 10Hz 100Hz ;;
        --behind | --for) echo 100ms 500ms 1s 1min ;;
        --fail-on) echo any ;;
        --start | --scale | --thousands | --rename | --streams | --from | --to | --pid) ;;
        *) return 1 ;;
    esac
}

_lolamon() {
    local word=${COMP_WORDS[COMP_CWORD]} before=${COMP_WORDS[COMP_CWORD - 1]} command=${COMP_WORDS[0]} values
    local name=${command##*/} has_options=yes
    if [[ " ${COMP_WORDS[*]:0:COMP_CWORD} " == *" -- "* || $name == lolamon && ${COMP_WORDS[1]} != @(run|replay|snapshot) ]]; then has_options=; fi
    # Bash cuts --show=outputs into three words.
    if [[ $word == = ]]; then word=; elif [[ $before == = ]]; then before=${COMP_WORDS[COMP_CWORD - 2]}; fi
    COMPREPLY=()
    if [[ $name == lolamon ]] && ((COMP_CWORD == 1)); then
        mapfile -t COMPREPLY < <(compgen -W 'run analyse drill replay snapshot' -- "$word")
    elif [[ $name == lolamon-spread ]] && ((COMP_CWORD == 1)) && [[ $word != -* ]]; then
        mapfile -t COMPREPLY < <(compgen -W "$(_lolamon_values --commands)" -- "$word")
    elif [[ $name == lolamon && ${COMP_WORDS[1]} == drill ]]; then
        return
    elif [[ -n $has_options ]] && values=$(_lolamon_values "$before"); then
        mapfile -t COMPREPLY < <(compgen -W "$values" -- "$word")
    elif [[ -n $has_options && $word == -* ]]; then
        mapfile -t COMPREPLY < <(compgen -W "$(_lolamon_free_options "$name" "$command")" -- "$word")
    elif [[ $name != lolamon-tick ]]; then
        compopt -o filenames 2>/dev/null
        mapfile -t COMPREPLY < <(compgen -f -- "$word")
    fi
}

complete -F _lolamon lolamon lolamon-batch lolamon-collect lolamon-doctor lolamon-estimate lolamon-explain lolamon-mend lolamon-overlay lolamon-plot lolamon-spread lolamon-table lolamon-tick lolamon-where
