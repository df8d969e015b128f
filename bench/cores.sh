#!/usr/bin/env bash
# Times the proved program on queries of at most 32 atoms over one binary predicate, whose cores are found by search.
# Usage: bench/cores.sh, after ./ucq or rt ci has built crates/ucq/out/ucq.
. "$(dirname "$0")/setup.sh"

# Each generator prints the atoms of a query, one a line.
star() { for i in $(seq 32); do echo "p(X,Y$i)"; done; }
path() { echo "p(a,X1)"; for i in $(seq 30); do echo "p(X$i,X$((i + 1)))"; done; echo "p(X31,b)"; }
cycle() {
    for i in $(seq 0 2 30); do
        echo "p(X$i,X$((i + 1)))"
        echo "p(X$(((i + 2) % 32)),X$((i + 1)))"
    done
}
copies() { for i in $(seq 32); do echo "p(X$i,Y$i)"; done; }
grid() {
    for row in 0 1 2 3; do
        for column in 0 1 2 3; do
            [ $column -lt 3 ] && echo "p(X$row$column,X$row$((column + 1)))"
            [ $row -lt 3 ] && echo "p(X$row$column,X$((row + 1))$column)"
        done
    done
}

printf '%-8s %6s %6s %10s\n' query atoms core seconds
for name in star path cycle copies grid; do
    $name > "$folder/atoms"
    { printf '? :- '; paste -s -d, "$folder/atoms" | tr -d '\n'; echo '.'; } > "$folder/$name.dlgp"
    start=$(date +%s%N)
    "$program" "$folder/$name.dlgp" > "$folder/out" || { echo "$name: status $?"; exit 1; }
    end=$(date +%s%N)
    core=$(tail -n 1 "$folder/out" | grep -o 'p(' | wc -l)
    printf '%-8s %6d %6d %10s\n' "$name" "$(wc -l < "$folder/atoms")" "$core" "$(awk "BEGIN { printf \"%.4f\", ($end - $start) / 1e9 }")"
done
