#!/usr/bin/env bash
# Times the proved program on the inputs that it makes itself.
# Usage: bench/making.sh, after ./ucq or rt ci has built crates/ucq/out/ucq.
. "$(dirname "$0")/setup.sh"

printf '%6s %8s %9s %10s\n' number queries seconds kilobytes
for number in 500 1000 2000 4000; do
    /usr/bin/time -o "$folder/time" -f '%e %M' "$program" --make "$number" >"$folder/out"
    read -r seconds kilobytes < <(tail -n 1 "$folder/time")
    queries=$(sed -n 's/^% queries //p' "$folder/out")
    printf '%6s %8s %9s %10s\n' "$number" "$queries" "$seconds" "$kilobytes"
done
