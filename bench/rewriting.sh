#!/usr/bin/env bash
# Times the proved program on rules and queries that it rewrites.
# Usage: bench/rewriting.sh, after rt ci has built crates/ucq/out/ucq and crates/ucq_tally/out/ucq_tally, or ./ucq the one
# and 'rt run' in crates/ucq_tally the other.
. "$(dirname "$0")/setup.sh"
[ -x "$tally" ] || { echo "build the tally first, by 'rt run' in crates/ucq_tally" >&2; exit 1; }
. "$(dirname "$0")/inputs.sh"

# 1,000 classes, each below the next.
chain() { chain_of 1000; }

# A binary tree of 255 classes, of which the root is asked.
tree() {
    for i in $(seq 2 255); do echo "c$((i / 2))(X) :- c$i(X)."; done
    echo "?(X) :- c1(X)."
}

# Two trees of 31 classes, asked together.
pairs() { pairs_of 31; }

pieces() { pieces_of 7; }

# One step with 16 pieces, and so 65,535 cores. The budget ends the run after it.
step() { pieces_of 16; }

# The rows, live and dead, and the rewritings that were tried are counted by another program, which isn't timed.
printf '%-8s %7s %8s %7s %9s %10s %10s\n' input status queries rows tried seconds kilobytes
for name in chain tree pairs roles pieces step paths; do
    $name > "$folder/$name.dlgp"
    words=()
    [ $name = roles ] && words=(--budget 65536)
    [ $name = step ] && words=(--budget 1)
    [ $name = paths ] && words=(--budget 24)
    /usr/bin/time -f '%e %M' -o "$folder/time" "$program" "${words[@]}" "$folder/$name.dlgp" > "$folder/out"
    status=$?
    read -r seconds kilobytes < <(tail -n 1 "$folder/time")
    queries=$(grep -c '^?' "$folder/out")
    read -r rows tried < <("$tally" "${words[@]}" "$folder/$name.dlgp" | sed 's/.* //' | paste -s -d ' ')
    printf '%-8s %7d %8d %7s %9s %10s %10s\n' $name $status "$queries" "${rows:--}" "${tried:--}" "$seconds" "$kilobytes"
done
