# What the launcher of a checkout and the one that is installed share: the version, the forms of the commands, and the start
# of a program. Both read this file, and set `plain` and `held` to the paths of the two programs. By itself it does nothing.
#
# The program `plain` writes memory to IMAGE when a run ends. With `held` each word is in IMAGE as soon as it is stored, so
# that the program may be killed. `serve` starts that one, unless RIO_MEMORY=plain; it makes no difference to the others.
# shellcheck shell=sh

version=1.0.0
commands='format serve check registry drill'

# Ends with the status $1 and the line $2.
refuse() {
    echo "rio: $2" >&2
    exit "$1"
}

# The words that the command $1 wants.
form_of() {
    case $1 in
        format) echo 'rio format IMAGE DISK --frames F --blocks B --inodes I --scratch C' ;;
        serve) echo 'rio serve IMAGE DISK [--stop N]' ;;
        check) echo 'rio check IMAGE DISK' ;;
        registry) echo 'rio registry IMAGE' ;;
        drill) echo 'rio drill --seed N --boots B --requests R' ;;
        *) return 1 ;;
    esac
}

# What the words of that form may be.
ranges_of() {
    case $1 in
        format) echo 'F from 32 to 8192, B from 3 + I / 32 to 32768, I from 32 to 32768 in multiples of 32, C from 1 to 64' ;;
        serve) echo 'two files; N up to 18 digits' ;;
        check) echo 'two files' ;;
        registry) echo 'one file' ;;
        drill) echo 'N from 0 to 2147483647, B from 1 to 1000, R from 1 to 100000' ;;
    esac
}

# What the command does.
purpose_of() {
    case $1 in
        format) echo 'writes a fresh image of memory and a fresh disk' ;;
        serve) echo 'answers each line of the standard input by a line, until it ends' ;;
        check) echo 'looks at an image and its disk, and changes neither' ;;
        registry) echo 'shows the pages that an image holds' ;;
        drill) echo 'serves drawn requests, stops and faults in memory alone' ;;
    esac
}

show_command() {
    printf 'usage: %s\n\nIt %s (%s).\n' "$(form_of "$1")" "$(purpose_of "$1")" "$(ranges_of "$1")"
}

show_help() {
    echo 'usage: rio COMMAND WORDS, or rio COMMAND --help, rio --help, rio --version'
    echo
    for command in $commands; do
        printf '%s\n    %s (%s)\n' "$(form_of "$command")" "$(purpose_of "$command")" "$(ranges_of "$command")"
    done
    cat <<'TEXT'

With `serve` what is answered is kept at once in IMAGE and DISK, so that the program may be killed; Ctrl-C does no harm, and
the end of the input (Ctrl-D) ends the run. With RIO_MEMORY=plain in the environment IMAGE is written when the run ends, and
a kill may lose the pair. The requests are in the manual page: man rio, or man/rio.1 in a checkout.
TEXT
}

# Ends here where the words or the environment ask for no program.
answer_itself() {
    case ${1:-} in
        --help) show_help && exit 0 ;;
        --version) echo "rio $version" && exit 0 ;;
        serve) check_memory ;;
    esac
    if [ "${2:-}" = --help ] && form_of "$1" >/dev/null; then
        show_command "$1" && exit 0
    fi
}

check_memory() {
    case ${RIO_MEMORY:-held} in
        held | plain) ;;
        *) refuse 64 'RIO_MEMORY is neither held nor plain: unset it, and memory is held' ;;
    esac
}

# Whether the words are those of `serve`, as far as they tell without the program. All that the program takes have to be: words
# that are told to be none start it below a shell, which a signal ends alone.
has_form_of_serve() {
    [ "${1:-}" = serve ] || return 1
    shift
    file=
    files=0
    stops=0
    while [ $# -gt 0 ]; do
        case $1 in
            --)
                shift
                count_files "$@" || return 1
                break
                ;;
            --stop)
                count_stop "${2:-}" || return 1
                shift
                ;;
            --stop=*) count_stop "${1#--stop=}" || return 1 ;;
            *) count_files "$1" || return 1 ;;
        esac
        shift
    done
    [ "$files" -eq 2 ] && [ "$stops" -le 1 ]
}

# Counts words that are to be files, whose names are not empty, do not begin with `-`, and differ.
count_files() {
    for word in "$@"; do
        case $word in '' | -* | "$file") return 1 ;; esac
        file=$word
        files=$((files + 1))
    done
}

# Counts an option --stop of this number.
count_stop() {
    is_number "$1" || return 1
    stops=$((stops + 1))
}

# A number is 0, or up to 18 digits that do not begin with 0.
is_number() {
    case $1 in
        0) ;;
        '' | 0* | *[!0-9]*) return 1 ;;
        *) [ ${#1} -le 18 ] ;;
    esac
}

# Tells what words were wanted where these are none of a command.
hint() {
    if form_of "${1:-}" >/dev/null; then
        echo "rio: the form is: $(form_of "$1") ($(ranges_of "$1"))"
    else
        echo "rio: the first word is no command: rio --help shows all"
    fi
}

# Runs the program, and tells a person at a terminal what its usage line, on the standard output, does not say.
run_with_hint() {
    "$program" "$@"
    status=$?
    [ "$status" -ne 2 ] || hint "$@" >&2
    exit "$status"
}

# Becomes the program, which gets all signals but three. Those a terminal sends where a key is pressed or where it is closed;
# that is the end of the input, which ends the run.
launch() {
    program=$plain
    if [ "${1:-}" = serve ]; then
        [ "${RIO_MEMORY:-held}" = plain ] || program=$held
        trap '' INT HUP QUIT
    fi
    if [ -t 2 ] && ! has_form_of_serve "$@"; then
        run_with_hint "$@"
    fi
    exec "$program" "$@"
}
