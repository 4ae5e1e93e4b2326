# Sourced by the scripts of this repository before they change directory.
# The comment at the head of a script is its help. If --help or -h is among the script's arguments,
# this file prints the help and ends the script with status 0.
this_script=$(readlink -f "$0")

print_help() {
    sed -n '2,/^[^#]/s/^# \{0,1\}//p' "$this_script"
}

# Prints the help to standard error and ends the script with status 2. For arguments that the script does not know.
usage() {
    print_help >&2
    exit 2
}

# fault WORDS: prints a fault to standard error and remembers it. A script that looks for faults ends with 'exit $status'.
status=0
fault() {
    echo "${this_script##*/}: $1" >&2
    status=1
}

for argument in "$@"; do
    case $argument in
    -h | --help)
        print_help
        exit 0
        ;;
    esac
done
