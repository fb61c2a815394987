#!/usr/bin/env bash
# Holds the stdout of by_hand and the runs of corners to what the Rust prints, where cargo and the Rust source are there; else it says so and passes.
set -euo pipefail
if ! command -v cargo >/dev/null || [ ! -d ../shared/docs/src ]; then
  echo "not held to the Rust: no cargo, or no Rust source at ../shared/docs/src"
  exit 0
fi
bash oracle/build.sh
python3 tests/solve_by_hand.py --check
python3 tests/loop_by_hand.py --check
python3 tests/corners.py --check
