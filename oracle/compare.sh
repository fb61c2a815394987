#!/usr/bin/env bash
# compare.sh COUNT [SEED]: compares a transcript program with the Rust on COUNT generated runs, line by line.
# TRANSCRIPT is the program (by default target/bin/transcript). MIX may hold three numbers: of a thousand runs so many
# inner solves, loops and psi, the rest d_psi. Exit status 0: no difference; 1: a difference; 2: nothing was compared.
set -euo pipefail
top=$(cd "$(dirname "$0")/.." && pwd)
count=${1:?"compare.sh COUNT [SEED]"}
seed=${2:-$(od -An -N6 -tu8 /dev/urandom | tr -d ' ')}
program=${TRANSCRIPT:-$top/target/bin/transcript}
if [ ! -x "$program" ]; then
  echo "not compared: no transcript program at $program" >&2
  exit 2
fi
"$top/oracle/build.sh" || exit 2
mkdir -p "$top/target"
folder=$(mktemp -d "$top/target/compare.XXXXXX")
echo "seed $seed, $count runs"
status=0
# shellcheck disable=SC2086
"$top/oracle/target/release/oracle" compare "$seed" "$count" "$program" "$folder" ${MIX:-} || status=$?
[ -e "$folder/difference" ] || rm -r "$folder"
exit "$status"
