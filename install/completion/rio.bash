# Completion of rio's words for bash 4 and later. Where bash-completion is installed it reads this by itself; else:
#     . install/completion/rio.bash
# shellcheck shell=bash

# The options of the command $1. Each of them has a value.
_rio_options() {
    case $1 in
        format) echo --frames --blocks --inodes --scratch ;;
        serve) echo --stop ;;
        drill) echo --seed --boots --requests ;;
    esac
}

# How many files the command $1 names.
_rio_files() {
    case $1 in
        format | serve | check) echo 2 ;;
        registry) echo 1 ;;
        *) echo 0 ;;
    esac
}

# How many files are named before the cursor: words that are no options and no values of options.
_rio_named() {
    local named=0 at
    for ((at = 2; at < COMP_CWORD; at++)); do
        [[ ${COMP_WORDS[at]} == [-=]* || ${COMP_WORDS[at - 1]} == --* || ${COMP_WORDS[at - 1]} == = ]] || ((named += 1))
    done
    echo "$named"
}

# The options of the command $1 that are not there yet.
_rio_open_options() {
    local option word
    for option in $(_rio_options "$1"); do
        for word in "${COMP_WORDS[@]:2}"; do
            [[ $word != "$option" ]] || continue 2
        done
        echo "$option"
    done
}

# Offers those of the words $1 that begin as the word at the cursor does.
_rio_offer() {
    mapfile -t COMPREPLY < <(compgen -W "$1" -- "${COMP_WORDS[COMP_CWORD]}")
}

_rio_offer_files() {
    compopt -o filenames 2>/dev/null
    mapfile -t COMPREPLY < <(compgen -f -- "${COMP_WORDS[COMP_CWORD]}")
}

_rio() {
    local word=${COMP_WORDS[COMP_CWORD]} before=${COMP_WORDS[COMP_CWORD - 1]} command=${COMP_WORDS[1]}
    COMPREPLY=()
    if ((COMP_CWORD == 1)); then
        _rio_offer 'format serve check registry drill --help --version'
    elif [[ $before == --* || $before == = || $word == = ]]; then
        return 0
    elif [[ $word != -* ]] && (($(_rio_named) < $(_rio_files "$command"))); then
        _rio_offer_files
    else
        _rio_offer "$(_rio_open_options "$command")"
    fi
}

complete -F _rio rio
