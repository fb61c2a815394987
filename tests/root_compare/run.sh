#!/usr/bin/env bash
# run.sh [COUNT]: compares `numeric::sqrt` with the processor's root on COUNT numbers (10,000,000), and times both in the same run.
# Exit status 1 where any differ, 3 where the comparison cannot run here.
set -euo pipefail
cd "$(dirname "$0")/../.."
count=${1:-10000000}
for name in "${CC:-}" cc gcc clang; do
  [ -n "$name" ] && command -v "$name" >/dev/null && compiler=$name && break
done
if [ -z "${compiler:-}" ]; then
  echo "root_compare: not run, since there is no C compiler here (CC, cc, gcc or clang)"
  exit 3
fi
if [ "$(uname -m)" != x86_64 ]; then
  echo "root_compare: not run, since 'rt lib' writes for x86-64 and this is $(uname -m)"
  exit 3
fi
mkdir -p target/root_compare
if ! bash tools/build.sh numeric_c >target/root_compare/staticlib.log 2>&1; then
  tail -n 20 target/root_compare/staticlib.log
  exit 1
fi
"$compiler" -O2 -o target/root_compare/compare tests/root_compare/compare.c target/staticlib/libnumeric_c.a
target/root_compare/compare "$count"
