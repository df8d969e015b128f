#!/usr/bin/env bash
# Times the proved program on the answers of unions over many facts.
# Usage: bench/answers.sh, after ./ucq or rt ci has built crates/ucq/out/ucq.
. "$(dirname "$0")/setup.sh"

. "$(dirname "$0")/inputs.sh"

# A million edges, and whether there is a path of three.
whether() {
    edges 1000000 500000
    echo "? :- e(X,Y), e(Y,Z), e(Z,W)."
}

# 300,000 edges, each of which is an answer.
every() {
    edges 300000 100000
    echo "?(X,Y) :- e(X,Y)."
}

printf '%-10s %9s %9s %9s %10s\n' input queries answers seconds kilobytes
for input in walks union whether every; do
    $input >"$folder/$input"
    /usr/bin/time -o "$folder/time" -f '%e %M' "$program" --answers "$folder/$input" >"$folder/out" 2>"$folder/err"
    read -r seconds kilobytes < <(tail -n 1 "$folder/time")
    queries=$(sed -n 's/^% queries //p' "$folder/out")
    answers=$(sed -n 's/^% answers //p' "$folder/out")
    printf '%-10s %9s %9s %9s %10s\n' "$input" "$queries" "$answers" "$seconds" "$kilobytes"
done
