# Sourced by ./test: ./run, ./install and the others as a person meets them: their words, their exit status, and what they say where something
# is wrong.

header='message reserve'

# ended STATUS OUTPUT ERRORS COMMAND..: the command ends with the status and writes this to standard output and standard error
ended() {
    want_status=$1 want_output=$2 want_errors=$3
    shift 3
    "$@" >target/output 2>target/errors
    status=$?
    [ "$status" = "$want_status" ] && reads_as target/output "$want_output" && reads_as target/errors "$want_errors" && return
    say "$*: not status $want_status, '$want_output' and '$want_errors', but $status, '$(head -n 5 target/output)' and '$(head -n 5 target/errors)'"
    return 1
}

# reads_as FILE TEXT: the file is the text; one that begins with * is the file's end, and one that ends with * its beginning
reads_as() {
    case $2 in
    '*'*) [[ $(cat "$1") == *"${2#?}" ]] ;;
    *'*') [[ $(cat "$1") == "${2%?}"* ]] ;;
    *) [ "$(cat "$1")" = "$2" ] ;;
    esac
}

# Sets first, what the first record of a sample gives; the record alone stands in target/record.
cut_record() {
    head -c 98 samples/decent.capture >target/record
    head -c 150 samples/decent.capture >target/half
    first=$(target/second capture target/record)
}

# ---- The command, given as words: ./run capture, or the installed one.

# A capture named or on standard input gives the second program's text, nothing else and status 0; the header is there within a second.
decodes() {
    for file in samples/*.capture; do
        expected=$(target/second capture "$file")
        ended 0 "$expected" '' "$@" "$file" && ended 0 "$expected" '' "$@" <"$file" && ended 0 "$expected" '' "$@" - <"$file" &&
            [ "$(timeout 1 "$@" "$file" | head -n 1)" = "$header" ] || return 1
    done
}

new_pipe() { rm -f target/pipe && mkfifo target/pipe; }

# The first record's line is there while the capture still comes.
shows_as_it_comes() {
    new_pipe || return 1
    exec 6< <("$@" <target/pipe) 7>target/pipe
    cat target/record >&7
    IFS= read -r -t 60 one <&6 && IFS= read -r -t 60 two <&6
    exec 7>&- 6<&-
    [ "${one-}"$'\n'"${two-}" = "$first" ]
}

# What can't be read or written ends with 1 and is named with the reason, after what could be decoded.
tells_failures() {
    ended 1 '' 'target/missing: No such file or directory' "$@" target/missing &&
        ended 1 '' 'samples: Is a directory' "$@" samples &&
        ended 1 "$header" '/proc/self/mem: Input/output error' "$@" /proc/self/mem &&
        ended 1 "$first" '*standard input: Input/output error' python3 tests/terminal.py lost target/record "$@" &&
        ended 1 '' '*: standard input is closed' timeout 20 "$@" <&- &&
        ended 0 "$first" '' "$@" target/record <&- &&
        ended 1 '' '*: standard output is closed' to_closed_output "$@" target/record &&
        ended 1 '' 'standard output: No space left on device' to_full_disk "$@" target/record &&
        ended 1 '' '' with_closed_errors "$@" target/missing
}

to_closed_output() { "$@" >&-; }
to_full_disk() { "$@" >/dev/full; }
with_closed_errors() { "$@" 2>&-; }

# A reader that has enough ends it at once, by a signal, and it says nothing.
ends_with_its_reader() {
    for _ in {1..50}; do cat samples/decent.capture; done >target/long.capture
    ended 141 "$header" '' timeout 10 bash -c '"$@" | head -n 1; exit "${PIPESTATUS[0]}"' - "$@" target/long.capture
}

# Ended by a signal, it leaves no program behind: nobody has the pipe open any more.
leaves_no_program() {
    new_pipe || return 1
    "$@" target/pipe >/dev/null 2>&1 &
    command=$!
    exec 7>target/pipe
    kill -TERM "$command"
    wait "$command" 2>/dev/null
    status=$?
    for _ in {1..50}; do
        (trap '' PIPE && printf x >&7) 2>/dev/null || { exec 7>&- && break; }
        sleep 0.1
    done
    { true >&7; } 2>/dev/null && exec 7>&- && return 1
    [ "$status" = 143 ]
}

tells_of_the_terminal() {
    ended 0 "$header" '*: reading the capture from standard input, which is a terminal' python3 tests/terminal.py input "$@" &&
        ended 0 "$first" '' python3 tests/terminal.py input "$@" target/record
}

# ---- The link report, by the command's words

# One sheet for all samples; the names of those that stop, and where, on standard error.
reports() {
    stops=$(for file in samples/*.capture; do target/second capture "$file" | sed -n "s|^stopped|$file: stopped|p"; done)
    ended 0 "$(target/second sheet samples/*.capture)" "$stops" "$@" samples/*.capture &&
        ended 0 "$(target/second sheet samples/decent.capture)" '' "$@" <samples/decent.capture &&
        ended 0 "$(target/second sheet target/record samples/weak.capture)" '' "$@" - samples/weak.capture <target/record
}

# What can't be read ends with 1 and is named with the reason, all of it in one run, and there is no sheet; what stops is told all the same.
tells_unread() {
    ended 1 '' 'target/missing: No such file or directory' "$@" target/record target/missing target/record &&
        ended 1 '' $'samples: Is a directory\ntarget/missing: No such file or directory' "$@" samples target/record target/missing &&
        ended 1 '' $'target/missing: No such file or directory\ntarget/half: stopped 10 at 98' "$@" target/missing target/half &&
        ended 1 '' '/proc/self/mem: Input/output error' "$@" target/record /proc/self/mem &&
        ended 1 '' '*: standard input is closed' timeout 20 "$@" target/record - <&- &&
        ended 0 "$(target/second sheet target/record)" '' "$@" target/record <&- &&
        ended 1 '' '*: standard output is closed' to_closed_output "$@" target/record &&
        ended 1 '' 'standard output: No space left on device' to_full_disk "$@" target/record
}

# Where standard error is a terminal: how far it is.
shows_how_far() {
    for _ in {1..55}; do cat samples/decent.capture; done >target/long.capture
    ended 0 "$(target/second sheet target/long.capture)" '' python3 tests/terminal.py errors target/shown "$@" target/long.capture &&
        grep -q '1 MiB decoded' target/shown
}

# Unasked, the program leaves descriptor 9 alone: it may be anybody's.
writes_to_nine_when_asked() {
    alone=(${emulator:+"$emulator"} "${loader[@]}" "target/bin/$1")
    "${alone[@]}" target/missing 9>target/told 2>/dev/null && [ ! -s target/told ] &&
        "${alone[@]}" -9 target/missing 9>target/told 2>/dev/null && [ -s target/told ] &&
        "${alone[@]}" -9 target/record 9>target/told >/dev/null && [ ! -s target/told ]
}

# ---- Words

# checks_words NAME COMMAND: help, and the refusal of words that mean nothing; NAME is how the command calls itself
checks_words() {
    usage="usage: $1 capture [FILE]"$'\n'"       $1 report [FILE..]"
    ended 0 "$usage*" '' "$2" --help && ended 0 "$usage*" '' "$2" -h && ended 0 "$usage*" '' "$2" capture --help &&
        ended 2 '' "$usage" "$2" && ended 2 '' "$usage" "$2" decode &&
        ended 2 '' "*: capture takes one file, not 2"$'\n'"$usage" "$2" capture one two &&
        ended 2 '' "*: the file's name is empty"$'\n'"$usage" "$2" capture '' &&
        ended 2 '' "*: there is no option --all; a file of that name is ./--all"$'\n'"$usage" "$2" capture --all &&
        ended 0 "$usage*" '' "$2" report --help && ended 2 '' "*: the file's name is empty"$'\n'"$usage" "$2" report one '' &&
        ended 2 '' "*: there is no option --all; a file of that name is ./--all"$'\n'"$usage" "$2" report one --all
}

scripts_check_words() {
    for usage in ./test ./bench './install PREFIX'; do
        script=${usage% *}
        ended 0 "usage: $usage*" '' "$script" --help && ended 0 "usage: $usage*" '' "$script" -h &&
            ended 2 '' "usage: $usage" "$script" --all && ended 2 '' "usage: $usage" "$script" one two || return 1
    done
    ended 2 '' 'usage: ./install PREFIX' ./install
}

# ---- Building, in a tree whose rt is a stand-in, so that it costs no proof

stand_in_rt() {
    cat <<EOT
#!/bin/sh
case \$1 in
doc) echo "$tree/kit/START-HERE.md" ;;
*)
    [ ! -e "$tree/broken" ] || { echo 'logic=not-proved'; exit 1; }
    for room in binary signed contest; do printf 'crate %s: modules loaded=0 checked=9\nlogic=proved functions=3\n' \$room; done
    mkdir -p out
    printf '#!/bin/sh\necho decoded\n' >"out/\${PWD##*/}"
    chmod 755 "out/\${PWD##*/}"
    ;;
esac
EOT
}

# Sets tree. Its folder bare has every command but rt.
make_tree() {
    tree=$(mktemp -d) && mkdir -p "$tree"/{bare,crates/capture,crates/report,kit/bin,kit/on/aarch64/toolchain/bin} && cp -R run tools crates.txt "$tree" || return 1
    stand_in_rt >"$tree/kit/bin/rt"
    printf '#!/bin/sh\nexec "$@"\n' >"$tree/kit/on/aarch64/toolchain/bin/qemu-x86_64"
    chmod 755 "$tree" "$tree/kit/bin/rt" "$tree/kit/on/aarch64/toolchain/bin/qemu-x86_64"
    ln -s /bin/* /usr/bin/* "$tree/bare" 2>/dev/null
    rm -f "$tree/bare/rt"
}

remove_tree() { chmod -R u+w "$tree" && rm -rf "$tree"; }

with_kit() { PATH=$tree/kit/bin:$PATH "$@" capture </dev/null; }
report_with_kit() { PATH=$tree/kit/bin:$PATH "$tree/run" report "$@" </dev/null; }
without_kit() { PATH=$tree/bare "$@" capture </dev/null; }
# someone who may not write what nobody may: not root
as_another() { if [ "$(id -u)" = 0 ]; then setpriv --reuid=65534 --regid=65534 --clear-groups "$@"; else "$@"; fi; }

building='proving and building the capture program, once; this takes some minutes'
no_kit=', and rt, the command of the Rattle kit, is missing; it is in no Debian package'

building_is_told() {
    ended 1 '' "run: the capture program has to be built$no_kit" without_kit "$tree/run" && touch "$tree/broken" &&
        ended 1 '' "$building"$'\n''logic=not-proved'$'\n'"$not_proved" with_kit "$tree/run" &&
        rm "$tree/broken" && ended 0 decoded "$building" with_kit "$tree/run" && ended 0 decoded '' with_kit "$tree/run"
}

# The report program is another; files that can't be read are all named before minutes of building.
report_is_built() {
    ended 1 '' $'run: target/missing: No such file or directory\nrun: samples: Is a directory' report_with_kit target/missing samples target/record &&
        ended 0 decoded 'proving and building the report program, once; this takes some minutes' report_with_kit target/record - &&
        ended 0 decoded '' report_with_kit target/record
}

# Where standard error is a terminal.
rooms_are_shown() {
    rm -f "$tree/target/bin/capture"
    ended 0 decoded '' with_kit python3 tests/terminal.py errors target/shown "$tree/run" && grep -q "proving: contest is done (3 of $(rooms capture))" target/shown
}

# On Arm it needs the kit's emulator.
built_needs_no_kit() {
    if [ -z "$emulator" ]; then ended 0 decoded '' without_kit "$tree/run"; else ended 1 '' "*$no_kit" without_kit "$tree/run"; fi
}

# By a link, and with a CDPATH where the folder's own name is found elsewhere.
run_is_found() {
    ln -s "$tree/run" "$tree/link" && mkdir -p "$tree/elsewhere/tools" "$tree/elsewhere/${tree##*/}" || return 1
    ended 0 decoded '' with_kit "$tree/link" && (cd "${tree%/*}" && CDPATH=$tree/elsewhere with_kit bash "${tree##*/}/run") | grep -qx decoded
}

# What is built runs for every user; what has to be built needs a target that can be written to.
target_may_be_anothers() {
    chmod -R a-w "$tree/target"
    ended 0 decoded '' with_kit as_another "$tree/run" && touch "$tree/crates.txt" -d tomorrow &&
        ended 1 '' "$cannot_write" with_kit as_another "$tree/run" && chmod -R u+w "$tree/target" && rm -rf "$tree/target" && chmod a-w "$tree" &&
        ended 1 '' "$cannot_write" with_kit as_another "$tree/run"
}

try_tree() {
    make_tree || { bad "no tree with a stand-in for rt"; return; }
    not_proved="run: the capture program is not proved: rt run in crates/capture ended with 1; $tree/target/log/build.out has the whole report"
    cannot_write="run: $tree/target can't be written to, and the capture program has to be built there"
    part "./run tells that it builds, that it can't, and that the kit is missing" building_is_told
    part "./run builds the report program" report_is_built
    part "./run shows the rooms on a terminal" rooms_are_shown
    part "what is built runs without the kit" built_needs_no_kit
    part "./run by a link, and with CDPATH" run_is_found
    part "./run where target can't be written to" target_may_be_anothers
    remove_tree
}

failing_compiler() { echo 'failing_compiler: no' >&2; return 1; }
probe_failing_compiler() { (host_cc=failing_compiler && probe); }
compiler_is_heard() { ended 1 '' 'failing_compiler: no'$'\n''*' probe_failing_compiler; }

# ---- ./install

installs() { ended 0 "installed into $place/garthumor" '' ./install "$place/garthumor"; }

by_page() { PKG_CONFIG_PATH=$place/garthumor/lib/pkgconfig pkg-config "$@" garthumor; }

# Static, as all C programs here are, so that Arm runs it too.
example_links_by_page() {
    words=$(by_page --cflags --libs) && "$host_cc" -std=c99 -Wall -Wextra -Werror -static -o target/linked examples/drive.c $words &&
        $emulator target/linked | cmp - examples/drive.expected &&
        grep -q "^#define GARTHUMOR_VERSION \"$(by_page --modversion)\"" include/garthumor.h
}

# A folder that is named from here, one below DESTDIR, and one that can't be made.
install_knows_its_folder() {
    (cd "$place" && "$root/install" here) | grep -qx "installed into $place/here" &&
        grep -qx "prefix=$place/here" "$place/here/lib/pkgconfig/garthumor.pc" &&
        ended 0 "installed into $place/staged/usr" '' env DESTDIR="$place/staged" ./install /usr &&
        grep -qx 'prefix=/usr' "$place/staged/usr/lib/pkgconfig/garthumor.pc" &&
        ended 1 '' 'install: /dev/null/garthumor: Not a directory' ./install /dev/null/garthumor
}

try_command() { # NAME WORD..
    part "$1 decodes the samples" decodes "${@:2}"
    part "$1 shows a capture as it comes" shows_as_it_comes "${@:2}"
    part "$1 ends with 1 where something can't be read or written" tells_failures "${@:2}"
    part "$1 ends with its reader" ends_with_its_reader "${@:2}"
    part "$1 ended by a signal leaves no program behind" leaves_no_program "${@:2}"
    part "$1 tells that it reads a terminal" tells_of_the_terminal "${@:2}"
}

try_report() { # NAME WORD..
    part "$1 reports on the samples" reports "${@:2}"
    part "$1 prints no sheet where a capture can't be read" tells_unread "${@:2}"
}

try_install() {
    place=$(mktemp -d) || { bad "no folder to install into"; return; }
    part "./install" installs
    part "the example for firmware by pkg-config's words" example_links_by_page
    part "./install knows its folder" install_knows_its_folder
    part "the words of the installed command" checks_words garthumor "$place/garthumor/bin/garthumor"
    try_command "the installed command" "$place/garthumor/bin/garthumor" capture
    try_report "the installed command" "$place/garthumor/bin/garthumor" report
    rm -rf "$place"
}

# ---- ./bench

# Whatever the environment is: all that a run executes, from its start on.
counts_are_the_same() {
    long=$(printf '%3001s' x)
    here=$(some_counts) && there=$(export LONG="$long" LC_ALL=C.UTF-8 QEMU_CPU=qemu64 && some_counts) && [ "$here" = "$there" ] && return
    say "here '$here', and in another environment '$there'"
    return 1
}
some_counts() { executed target/bench run encode decent 0 4 && records capture old 2 && records capture new 2 && records report old 2; }
