#!/usr/bin/env bash
# Times the proved program on each of the inputs below, one after another, with 1, 2 and 4 workers.
# Usage: bench/table.sh [OTHER], after rt ci has built the program and the tally. OTHER is a program of the same words but
# --workers, which is run by turns with this one: its seconds, and how many times as long this one takes, stand in the last
# columns. Each time is the least of three runs, or of one where a run takes more than five seconds.
. "$(dirname "$0")/setup.sh"
. "$(dirname "$0")/inputs.sh"
other=${1:-}
tree_127() { pairs_of 127; }
tree_255() { pairs_of 255; }

# Runs a command, and prints its seconds and kilobytes.
timed() {
    /usr/bin/time -f '%e %M' -o "$folder/time" "$@" > "$folder/out" 2> "$folder/err"
    tail -n 1 "$folder/time"
}

# The lesser of two times, the first of which may lack.
least() { echo "${1:-$2} $2" | awk '{ print ($1 < $2) ? $1 : $2 }'; }

# What the tally counts of an input: rows, and rewritings tried.
counts() {
    if [ -x "$tally" ] && [ -n "$file" ]; then
        "$tally" "${words[@]}" "$file" | sed 's/.* //' | paste -s -d ' '
    fi
}

row() {
    local name=$1 file=''
    shift
    words=("$@")
    if [ "$name" != make ]; then
        file=$folder/$name.dlgp
        $name > "$file"
    fi
    local -A best=()
    local kilobytes='' others='' seconds more
    for turn in 1 2 3; do
        for workers in 1 2 4; do
            read -r seconds more < <(timed "$program" --workers $workers "${words[@]}" ${file:+"$file"})
            best[$workers]=$(least "${best[$workers]:-}" "$seconds")
            [ $workers = 1 ] && kilobytes=$more
        done
        if [ -n "$other" ]; then
            read -r seconds more < <(timed "$other" "${words[@]}" ${file:+"$file"})
            others=$(least "$others" "$seconds")
        fi
        awk -v s="${best[1]}" 'BEGIN { exit !(s > 5) }' && break
    done
    local rows tried
    read -r rows tried < <([[ " ${words[*]} " = *" --answers "* ]] || counts)
    local each times
    each=$(awk -v s="${best[1]}" -v n="${tried:-0}" 'BEGIN { if (n > 0) printf "%.1f", s / n * 1e6; else print "-" }')
    times=$(awk -v s="${best[1]}" -v o="${others:-0}" 'BEGIN { if (o > 0) printf "%.1f", s / o; else print "-" }')
    printf '%-14s %8s %8s %8s %9s %8s %9s %8s %8s %6s\n' "$name" "${best[1]}" "${best[2]}" "${best[4]}" "$kilobytes" "${rows:--}" "${tried:--}" "$each" "${others:--}" "$times"
}

printf '%-14s %8s %8s %8s %9s %8s %9s %8s %8s %6s\n' input '1' '2' '4' kilobytes rows tried 'µs each' other times
row constants
row small_roles
row path_ontology
row tree_127 --budget 65536
row tree_255 --budget 65536
row make --make 4000
row large_roles --budget 65536
row two_answers --budget 65536
row five_atoms --budget 65536
row seven_answers
row paths --budget 26
row walks --answers
row union --answers
row long_file --answers
