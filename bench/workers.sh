#!/usr/bin/env bash
# Times the proved program with 1, 2 and 4 workers.
# Usage: bench/workers.sh, after ./ucq or rt ci has built crates/ucq/out/ucq.
. "$(dirname "$0")/setup.sh"
. "$(dirname "$0")/inputs.sh"

# One row a level.
chain() { chain_of 2000; }

# Levels of up to some thousand rows, each with few rewritings.
pairs() { pairs_of 127; }

# Seven atoms, each of which goes to `s` and then to `t`: rows with many rewritings.
pieces() {
    echo "s(X) :- t(X)."
    pieces_of 7
}

printf '%-8s %7s %7s %7s %10s %10s\n' input workers status rows seconds kilobytes
for name in chain pairs roles pieces; do
    $name > "$folder/$name.dlgp"
    for workers in 1 2 4; do
        /usr/bin/time -f '%e %M' -o "$folder/time" "$program" --budget 65536 --workers $workers "$folder/$name.dlgp" > "$folder/out"
        status=$?
        read -r seconds kilobytes < <(tail -n 1 "$folder/time")
        rows=$(grep -c '^?' "$folder/out")
        printf '%-8s %7d %7d %7d %10s %10s\n' $name $workers $status "$rows" "$seconds" "$kilobytes"
    done
done
