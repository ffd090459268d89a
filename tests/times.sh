# Sourced by ./test: when each room was proved, and the seconds of the parts after rt ci, as a table.

# in_minutes SECONDS
in_minutes() { printf '%d min %02d s' "$(($1 / 60))" "$(($1 % 60))"; }

# rooms_table FILE: of what rt ci printed, each line with its second before it, a line for each room: by which second it was proved, or that an
# earlier run on this machine proved the same files; its edits, and how many of them were tried. Then all of them.
rooms_table() {
    awk '
        function row(name, at, edits, tried) { printf "%-12s%12s%9s%9s\n", name, at, edits, tried }
        $2 != "rt:" { next }
        $4 == "proved" || $4 " " $5 == "NOT PROVED" || $4 " " $5 == "is kept:" {
            if (!($3 in known)) { known[$3]; name[++rooms] = $3 }
            at[$3] = $4 == "proved" ? $1 : $4 == "is" ? "kept" : "not proved"
        }
        $3 == "must-fail" { split($4, edit, "/"); edits[edit[1]]++; tried[edit[1]]++ }
        $5 == "of" && $8 == "must-fail" { split($3, room, ":"); edits[room[1]] += 0; tried[room[1]] -= $4 }
        END {
            row("room", "proved at", "edits", "tried")
            for (i = 1; i <= rooms; i++) {
                row(name[i], at[name[i]], edits[name[i]] + 0, tried[name[i]] + 0)
                all_edits += edits[name[i]]; all_tried += tried[name[i]]
            }
            row(rooms + 0 " rooms", "", all_edits + 0, all_tried + 0)
        }' "$1"
}

# table_is_whole FILE: the table made of it has every room of crates.txt and every edit
table_is_whole() {
    want_rooms=$(grep -c '^[^#]' crates.txt) want_edits=$(find crates -path '*/must-fail/*.edit' | wc -l)
    rooms_table "$1" | tail -n 1 | awk -v rooms="$want_rooms" -v edits="$want_edits" '{ exit !($1 == rooms && $3 == edits) }' && return
    say "crates.txt has $want_rooms rooms with $want_edits edits, and the table ends with: $(rooms_table "$1" | tail -n 1)"
    return 1
}

# timed COMMAND..: runs it, and leaves its seconds in took
timed() {
    began=$SECONDS
    "$@"
    ended_with=$?
    took=$((SECONDS - began))
    return "$ended_with"
}

times() {
    rooms_table target/log/ci.out
    say "rt ci: $(in_minutes "$proofs_took")"
    say "the $parts parts after it: $(in_minutes $((SECONDS - proofs_took)))"
    [ "${#slow_parts[@]}" = 0 ] || printf '    %s\n' "${slow_parts[@]}"
    say "the whole: $(in_minutes "$SECONDS")"
}
