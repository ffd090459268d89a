# Sourced by ./bench and ./test, after machine.sh, build.sh and hosts.sh: counts executed instructions. A count must not follow the machine: what
# lies on the stack, the environment and every name among it, moves what lies below, and a C library chooses by the processor what it runs. So
# the environment is empty, all names are relative, and the processor is a named one.

# Sets counting, the words of the emulator that prints a line for each instruction; and the kit's C library gets a name of its own here.
counter() {
    need_kit "what is counted is linked to the kit's C library"
    by=$emulator
    [ -n "$by" ] || { need qemu-x86_64 qemu-user; by=$(command -v qemu-x86_64); }
    each_alone=-one-insn-per-tb
    # what emulators before 8.1 call it
    "$by" -help | grep -q -e "$each_alone" || each_alone=-singlestep
    counting=(env -i "$by" -cpu Haswell "$each_alone" -d exec,nochain)
    # a copy, since rt ci refuses a checkout that holds a link
    rm -rf target/kit && cp -R "$tools/lib" target/kit
}

bench_builds() {
    "$host_cc" -std=c99 -O3 -Wall -Wextra -Werror -c tests/host/peers.c -o target/peers.o &&
        host bench tests/host/bench.c tests/host/inputs.c tests/host/field.c target/peers.o
}

traced() { "${counting[@]}" "$@" 2>&1 >/dev/null; }
executed() { traced "$@" | wc -l; }
# between CALL KIND N: what n calls execute, with the host's own loop
between() { echo $(($(executed target/bench run "$1" "$2" 0 $((2 * $3))) - $(executed target/bench run "$1" "$2" 0 "$3"))); }
# each CALL KIND N: one call, on average over n inputs of a kind
each() { echo $((($(between "$1" "$2" "$3") - $(between none "$2" "$3")) / $3)); }
# alone CALL: what each call executes with the host's own loop, for all 64 readings of each of five kinds: the trace is cut where the loop enters it
alone() {
    for kind in decent weak full extreme zeros; do
        traced target/bench run "$1" "$kind" 0 65 |
            awk -v call="$1" '$NF == call && (before == "main" || before == "run_one") { if (start) print NR - start; start = NR } { before = $NF }'
    done | sort -n
}
# longest N: new records with the longest lines that tell a loss: message 4,095 (0xEEEE87) at full size, and 32,767 lost before each
longest() {
    word=nnnpnnnpnnnpnnnpnppppnnn
    reading=${word//n/\\200\\0\\0\\1} reading=${reading//p/\\177\\377\\377\\377}
    for ((i = 0; i < $1; i++)); do printf "ID\\$((i % 2 * 2))00\\0$reading"; done
}
# records PROGRAM KIND N: what a whole program, capture or report, executes for n records: old ones, the first of the decent sample; new ones,
# those after the 60 old records of the numbered sample; or those with the longest lines
records() {
    case $2 in
    old) head -c $((98 * $3)) samples/decent.capture ;;
    new) tail -c +$((98 * 60 + 1)) samples/numbered.capture | head -c $((100 * $3)) ;;
    longest) longest "$3" ;;
    esac >target/bench.capture
    executed target/kit/ld-linux-x86-64.so.2 --library-path target/kit "target/bin/$1" target/bench.capture
}
