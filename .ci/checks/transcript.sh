#!/usr/bin/env bash
# Compares the transcript program with the Rust on 20,000 runs of all kinds and corners with a fresh seed, which it prints, and its stored stdin and stdout with the recorded list, where
# cargo and the Rust source are there; else it says so and passes.
set -euo pipefail
if ! command -v cargo >/dev/null || [ ! -d ../shared/docs/src ]; then
  echo "not compared with the Rust: no cargo, or no Rust source at ../shared/docs/src"
  exit 0
fi
bash tools/build.sh transcript
bash oracle/compare.sh 20000
bash oracle/record.sh | tail -n 1
for part in stdin stdout; do
  cmp "target/recorded/$part" "crates/transcript/$part"
done
