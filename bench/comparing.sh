#!/usr/bin/env bash
# Times the proved program with --within: queries compared, and each rule judged by the others.
# Usage: bench/comparing.sh, after ./ucq or rt ci has built crates/ucq/out/ucq.
. "$(dirname "$0")/setup.sh"
. "$(dirname "$0")/inputs.sh"

# A tree of so many classes, and a short cut from each class to the one two above: every short cut follows.
short_cuts() {
    for i in $(seq 2 "$1"); do echo "c$((i / 2))(X) :- c$i(X)."; done
    for i in $(seq 4 "$1"); do echo "c$((i / 4))(X) :- c$i(X)."; done
    echo "?(X) :- c1(X)."
}

# So many queries over a chain of classes, of one atom and of two: each is within those that stand before it.
compared() {
    for i in $(seq "$1"); do echo "c$((i - 1))(X) :- c$i(X)."; done
    for i in $(seq 0 2 "$1"); do echo "?(X) :- c$i(X). ?(X) :- c$i(X), c0(X)."; done
}

hundred_rules() { classes_and_roles 60 10; echo "?(X) :- c1(X)."; }
thousand_rules() { short_cuts 512; }
sixty_queries() { compared 58; }

printf '%-16s %6s %8s %6s %8s %6s %9s\n' input status queries rules follows yes seconds
for name in hundred_rules thousand_rules sixty_queries; do
    $name > "$folder/$name.dlgp"
    start=$(date +%s%N)
    "$program" --within "$folder/$name.dlgp" > "$folder/out"
    status=$?
    end=$(date +%s%N)
    printf '%-16s %6d %8d %6d %8d %6d %9s\n' "$name" "$status" "$(grep -c '^% minimal' "$folder/out")" \
        "$(grep -c '^% rule' "$folder/out")" "$(grep -c '^% rule .* follows' "$folder/out")" \
        "$(grep -c '^% within .* yes' "$folder/out")" "$(awk "BEGIN { printf \"%.2f\", ($end - $start) / 1e9 }")"
done
