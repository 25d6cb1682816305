# Taken by the benches that are scripts of the shell.

# Where the first word behind the script's name asks for help, prints the words at the head of the script, and ends.
help_if_asked() {
    case ${2:-} in
        -h | --help)
            sed -n '2,/^[^#]/s/^# \{0,1\}//p' "$1"
            exit 0
            ;;
    esac
}
