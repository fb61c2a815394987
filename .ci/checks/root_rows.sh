#!/usr/bin/env bash
# The stored rows of crates/roots are those that tests/roots.py works out. Where there is no Python 3.8 it says so and passes.
set -euo pipefail
if ! python3 -c 'import math; math.isqrt(4)' 2>/dev/null; then
  echo "root_rows: not run, since there is no Python 3.8 or newer here"
  exit 0
fi
python3 tests/roots.py --check
