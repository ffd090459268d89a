# Sourced by ./run, ./install, ./test and ./bench, after machine.sh: what rt proves and builds, made again where a source has changed since.
# They set root, the tree's folder.

# fresh FILE: it is there, and no source is newer; what rt itself writes, each room's out/, is none
fresh() {
    [ -s "$root/$1" ] && [ ! "$root/crates.txt" -nt "$root/$1" ] &&
        [ -z "$(find "$root/crates" -mindepth 2 -name out -prune -o -newer "$root/$1" -print -quit)" ]
}

# rooms NAME: how many rooms rt proves for one; crates.txt has each above those that it stands on, when read from the end
rooms() {
    tac "$root/crates.txt" | awk -F: -v name="$1" '
        BEGIN { asked[name] }
        { split($1, word, " ") }
        word[1] in asked { count++; split($2, under, " "); for (i in under) asked[under[i]] }
        END { print count }'
}

# show_rooms COUNT: of what rt prints, which room it has proved last, in one line of the terminal that is written over
show_rooms() {
    proved_rooms=0
    while IFS= read -r line; do
        case $line in
        'crate '*': modules '*) room=${line#crate } ;;
        'logic=proved '*)
            proved_rooms=$((proved_rooms + 1))
            printf '\r\033[Kproving: %s is done (%s of %s)' "${room%%:*}" "$proved_rooms" "$1" >&2
            ;;
        esac
    done
    printf '\r\033[K' >&2
}

follow() { if [ -t 2 ]; then show_rooms "$(rooms "$1")"; else cat >/dev/null; fi; }

# Whatever another user made there could not be made again.
can_write_target() { mkdir -p "$root/target/log" 2>/dev/null && [ -z "$(find "$root/target" ! -type l ! -writable -print -quit 2>&1)" ]; }

# prove WHAT FILE COMMAND NAME: `rt COMMAND` in the room NAME makes what is copied to the file. What a program writes is not asked for: `rt run`,
# which builds it, also runs it, on no input.
prove() {
    need_kit "$1 has to be built"
    can_write_target || die "$root/target can't be written to, and $1 has to be built there"
    printf 'proving and building %s, once; this takes some minutes\n' "$1" >&2
    (cd "$root/crates/$4" && exec rt "$3") 2>&1 </dev/null | tee "$root/target/log/build.out" | follow "$4"
    status=${PIPESTATUS[0]} made=$root/crates/$4/out/${2##*/}
    if [ "$status" != 0 ] || [ ! -s "$made" ]; then
        tail -n 20 "$root/target/log/build.out" >&2
        die "$1 is not proved: rt $3 in crates/$4 ended with $status; $root/target/log/build.out has the whole report"
    fi
    mkdir -p "$root/${2%/*}" && cp --remove-destination -- "$made" "$root/$2" && touch "$root/$2"
}

# The programs are capture and report, and parts for the tests.
is_built() { fresh "target/bin/$1"; }
build_program() { is_built "$1" || prove "the $1 program" "target/bin/$1" run "$1"; }
build_library() { fresh target/staticlib/libdrive.a || prove "the library for C" target/staticlib/libdrive.a lib drive; }
build_trial() { fresh target/staticlib/libtrial.a || prove "the library for the tests" target/staticlib/libtrial.a lib trial; }
