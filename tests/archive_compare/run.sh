#!/usr/bin/env bash
# run.sh OLD OLD_INCLUDE [RUNS [SEED]]: compares target/staticlib/libpozkerrin.a (or ARCHIVE) with the older archive OLD, whose header lies in OLD_INCLUDE, by random runs of the inner
# solve, the loop, psi and d_psi, after every call. The older one's functions are renamed to old_*, so that one program plays the same runs on both.
set -euo pipefail
cd "$(dirname "$0")/../.."
out=target/archive_compare
here=tests/archive_compare
archive=${ARCHIVE:-target/staticlib/libpozkerrin.a}
flags="-std=c11 -O2 -ffp-contract=off -Wall -Wextra -Werror -I$here"
mkdir -p "$out"
side=structs
if grep -q pkr_w6 "$2/pozkerrin.h"; then side=arrays; fi
{ nm -g --defined-only "$1" | awk '$2 == "T" { print $3, "old_" $3 }'; echo library_side old_side; } >"$out/names"
# shellcheck disable=SC2086
{
  "${CC:-gcc}" $flags -Ihost/include -c -o "$out/new.o" "$here/structs.c"
  "${CC:-gcc}" $flags "-I$2" -c -o "$out/old.o" "$here/$side.c"
  objcopy --redefine-syms="$out/names" "$out/old.o"
  objcopy --redefine-syms="$out/names" "$1" "$out/libold.a"
  "${CC:-gcc}" $flags -o "$out/compare" "$here/compare.c" "$out/new.o" "$archive" "$out/old.o" "$out/libold.a" -lm
}
"$out/compare" "${@:3}"
