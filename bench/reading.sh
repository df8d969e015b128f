#!/usr/bin/env bash
# Times the proved program on files near the limit of 2^26 bytes: comment, one text literal, identifiers, facts.
# Usage: bench/reading.sh, after ./ucq or rt ci has built crates/ucq/out/ucq.
. "$(dirname "$0")/setup.sh"
limit=67108864

repeated() { yes "$1" | tr -d '\n' | head -c "$2"; }
comment() { printf '%%'; repeated x $((limit - 1)); }
literal() { printf '"'; repeated 'a b' $((limit - 2)); printf '"'; }
identifiers() { yes 'abcdefg' | head -c $limit; }
facts() { awk 'BEGIN { for (i = 0; i < 1000000; i++) printf "edge(n%d,X%d).\n", i, i % 7; print "? :- edge(n1,X)." }'; }

printf '%-12s %10s %8s %10s %12s\n' file bytes status seconds kilobytes
for name in comment literal identifiers facts; do
    $name > "$folder/file"
    start=$(date +%s%N)
    /usr/bin/env time -f %M -o "$folder/memory" "$program" "$folder/file" > /dev/null 2> /dev/null
    status=$?
    end=$(date +%s%N)
    printf '%-12s %10d %8d %10s %12s\n' "$name" "$(wc -c < "$folder/file")" "$status" \
        "$(awk "BEGIN { printf \"%.2f\", ($end - $start) / 1e9 }")" "$(tail -n 1 "$folder/memory")"
done
