#!/usr/bin/env bash
# build.sh CRATE..: proves each crate with what it rests on, and leaves the program as target/bin/CRATE or the static library as target/staticlib/libCRATE.a.
set -euo pipefail
cd "$(dirname "$0")/.."
for name in "$@"; do
  folder=crates/$name
  if [ -f "$folder/src/main.rt" ]; then
    # a program that has nothing to read ends at once
    (cd "$folder" && rt run) </dev/null >/dev/null
    mkdir -p target/bin
    cp "$folder/out/$name" "target/bin/$name"
  else
    (cd "$folder" && rt lib)
    mkdir -p target/staticlib
    cp "$folder/out/lib$name.a" "target/staticlib/lib$name.a"
  fi
done
