# What the examples share: the program, a temporary folder, bytes as digits, and a run that is asked line by line.
# Each of them reads this file. By itself it does nothing.
# shellcheck shell=sh

example=${0##*/}
top=$(CDPATH='' cd -- "$(dirname -- "$0")/.." && pwd) || exit 1

# The two ways in which an example ends. Each prints its last line, of which a failure's shows line ends as bars.
passed() {
    printf '%s: passed: %s\n' "$example" "$1"
    exit 0
}

fail() {
    printf '%s: FAILED: %s\n' "$example" "$(printf %s "$1" | tr '\n' '|')"
    exit 1
}

# Sets `rio` to the program that RIO names, or to that of this checkout, which ./rio proves and builds where it is missing or
# older than a source. It is run as it lies there, so that its sources are looked at once and not at each run. With no words
# it prints its usage line, and its status is 2.
find_program() {
    case ${RIO:-} in
        '') rio=$top/rio ;;
        /*) rio=$RIO ;;
        *) rio=$PWD/$RIO ;;
    esac
    usage=$("$rio" </dev/null)
    if [ $? -ne 2 ] || [ "${usage%%,*}" != 'usage: rio format' ]; then
        fail "$rio is not the program, or it cannot be built"
    fi
    [ -n "${RIO:-}" ] || rio=$top/crates/rio/out/rio
}

# Goes to an empty folder of its own, which is removed in the end, when no run is left that works there.
enter_folder() {
    folder=$(mktemp -d) || fail 'there is no place for a temporary folder'
    trap leave_folder EXIT
    trap 'exit 1' HUP INT TERM
    trap : PIPE
    cd "$folder" || fail "there is no way to $folder"
}

leave_folder() {
    exec 3>&- 4<&-
    wait
    cd / && rm -rf "$folder"
}

# Makes a fresh pair. $1 are the numbers of frames, blocks and inodes.
make_pair() {
    # shellcheck disable=SC2086 # the words of $1 are three
    set -- $1
    "$rio" format image disk --frames "$1" --blocks "$2" --inodes "$3" --scratch 1 >formatted || fail 'no pair can be made'
}

# The digits of the bytes that come in, two for each.
to_digits() {
    od -A n -v -t x1 | tr -d ' \n'
}

# The bytes of the digits that come in. xxd -r -p does this too, where it is installed.
to_bytes() {
    printf '%b' "$(fold -w 2 | awk '
        BEGIN { digits = "0123456789abcdef" }
        { printf "\\0%03o", 16 * index(digits, substr($0, 1, 1)) + index(digits, substr($0, 2, 1)) - 17 }
    ')"
}

# Starts a run over the pair. Between begin_run and end_run it is asked.
begin_run() {
    rm -f requests replies
    mkfifo requests replies || fail 'no pipe can be made'
    "$rio" serve image disk <requests >replies &
    program=$!
    exec 3>requests 4<replies
}

# Sends the line $1 and waits for its reply, which is then in `reply`.
ask() {
    { printf '%s\n' "$1" >&3; } 2>/dev/null
    IFS= read -r reply <&4 || fail "'$(shortened "$1")' has no reply"
}

# Asks the line $1, to which $2 has to be the reply.
expect() {
    ask "$1"
    [ "$reply" = "$2" ] || fail "'$(shortened "$1")' has the reply '$(shortened "$reply")' in place of '$(shortened "$2")'"
}

shortened() {
    printf '%.60s' "$1"
}

# Ends the input. The run has to end with status 0 and nothing more to say.
end_run() {
    exec 3>&-
    more=$(cat <&4)
    exec 4<&-
    wait "$program" || fail "a run ended with status $?"
    [ -z "$more" ] || fail "a run ended with '$(shortened "$more")'"
}
