# Sourced by ./run and by the installed command, after machine.sh: the command's words, and its exit status. They set called, what the command
# is called, and programs, the folder of the built programs, and have ready FILE.., which sees to it that the program named job is there.

words() {
    cat <<EOT
usage: $called capture [FILE]
       $called report [FILE..]
EOT
}

help() {
    words
    cat <<EOT

capture decodes a capture, FILE or standard input. What it prints:

    message reserve      the header
    3272 4958384         a record: the command, 0 to 4,095, and its reserve: any change of the 24 confidences that adds up to less keeps it
    3272 4958384 2       a new record, which has a number: two before it were lost; \`repeat\` in place of the count: the same number again;
                         \`late\`: out of order; refused records have it too
    refused 6            no one command is best: keep the last speed
    refused 2            a confidence is -2,147,483,648, which is no confidence: look at the receiver
    stopped 9 at 14700   no mark where a record should begin, at this byte; nothing after it is read
    stopped 10 at 196    the capture ends within the record that begins at this byte

report counts the records of all files, or of standard input, and prints one sheet:

    read 500             how many records were read
    accepted 434         of these: a command was accepted
    refused 2 0          refused with 2
    refused 6 66         refused with 6
    message 3272 434     how often a command was accepted; the least first, and none that never was
    smallest 12          the smallest reserve, or \`none\`
    total 6173           all reserves added up

Where a capture stops, its name and the \`stopped\` line go to standard error, and the next file is read. Where one can't be read there is no
sheet.

It ends with 0 where the captures were read, also those that stopped; with 1 where something could not be read or written, and then says on
standard error what and why; with 2 where its words are wrong.
EOT
}

# usage WORD..: refuses, and says why where the usage alone would not
usage() {
    [ $# = 0 ] || tell "$*"
    words >&2
    exit 2
}

check_name() {
    case $1 in
    '') usage "the file's name is empty" ;;
    -h | --help) help; exit ;;
    -?*) usage "there is no option $1; a file of that name is ./$1" ;;
    esac
}

# check_words WORD..: refuses all but those of the usage, and sets job
check_words() {
    case ${1-} in
    -h | --help) help; exit ;;
    capture | report) job=$1; shift ;;
    *) usage ;;
    esac
    [ "$job" = report ] || [ $# -le 1 ] || usage "capture takes one file, not $#"
    for name; do check_name "$name"; done
}

# reads_input FILE..: whether the words name standard input
reads_input() {
    [ $# -gt 0 ] || return 0
    for name; do [ "$name" != - ] || return 0; done
    return 1
}

# A stream that is closed would give its number to what is opened next, a pipe of this script or the capture itself.
check_streams() {
    { true 8>&2; } 2>/dev/null || exec 2>/dev/null
    { true 8>&1; } 2>/dev/null || die "standard output is closed"
    { true 8<&0; } 2>/dev/null && return
    ! reads_input "$@" || die "standard input is closed"
    exec </dev/null
}

# Who forgot the file would wait.
tell_terminal() { [ $# -gt 0 ] || [ ! -t 0 ] || tell "reading the capture from standard input, which is a terminal"; }

# Where this script is ended by a signal, the program ends too.
tied() {
    if setpriv --pdeathsig TERM true 2>/dev/null; then exec setpriv --pdeathsig TERM "$@"; else exec "$@"; fi
}

# The program ends with 0 whatever fails (with 141 where nobody reads it). After the word -9 it tells a failure on descriptor 9, which is caught here,
# while its output passes by on 8.
decode() {
    { failures=$(tied ${emulator:+"$emulator"} "${loader[@]}" "$programs/$job" -9 "$@" 9>&1 >&8 8>&-); } 8>&1
    status=$?
    [ "$status" != 0 ] || [ -z "$failures" ] || status=1
    exit "$status"
}

command_line() {
    check_words "$@"
    shift
    check_streams "$@"
    ready "$@"
    machine
    tell_terminal "$@"
    decode "$@"
}
