# Sourced by the other scripts: the proved programs, and a folder for its input, which is gone afterwards.
set -u
top=$(cd "$(dirname "$0")/.." && pwd)
program=$top/crates/ucq/out/ucq
tally=$top/crates/ucq_tally/out/ucq_tally
[ -x "$program" ] || { echo "build the program first, by ./ucq FILE" >&2; exit 1; }
folder=$(mktemp -d)
trap 'rm -rf "$folder"' EXIT
