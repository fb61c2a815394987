#!/usr/bin/env bash
# copy.sh TO: puts the listed Rust files, unchanged, into the folder TO with our stand-ins for the modules that they lack.
set -euo pipefail
mkdir -p "$1"
to=$(cd "$1" && pwd)
cd "$(dirname "$0")"
from=../../shared/docs/src
if [ ! -f "$from/INDEX.md" ]; then
  echo "the Rust files are not at ../shared/docs/src" >&2
  exit 2
fi

put() { # put FILE: takes what it reads as the file, and leaves an equal file alone, so that an unchanged build stays quick
  mkdir -p "$(dirname "$to/$1")"
  cat >"$to/$1.new"
  if cmp -s "$to/$1.new" "$to/$1"; then rm "$to/$1.new"; else mv "$to/$1.new" "$to/$1"; fi
}

# the listed files
grep -o 'rust/src/[a-z_/]*\.rs' "$from/INDEX.md" | while read -r file; do
  if [ -e "standins/engine/${file#rust/}" ]; then
    echo "a stand-in has the name of a listed file: $file" >&2
    exit 2
  fi
  put "${file#rust/}" <"$from/$file"
done

# the modules that docs/src lacks
(cd standins/engine && find . -type f) | while read -r file; do
  put "$file" <"standins/engine/$file"
done

# the sets that constraints/mod.rs names: no run uses one, so each is an empty struct
sed -n 's/^pub use \([a-z0-9_]*\)::\(.*\);$/\1 \2/p' "$from/rust/src/constraints/mod.rs" | tr -d '{},' |
  while read -r module names; do
    for name in $names; do
      echo "/// Stands in for a set that no run uses."
      echo "pub struct $name;"
    done | put "src/constraints/$module.rs"
  done
