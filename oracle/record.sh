#!/usr/bin/env bash
# Writes the recorded list, which is replayed without the Rust, to target/recorded/stdin and target/recorded/stdout.
set -euo pipefail
top=$(cd "$(dirname "$0")/.." && pwd)
"$top/oracle/build.sh"
mkdir -p "$top/target/recorded"
"$top/oracle/target/release/oracle" record "$top/oracle/corners.txt" "$top/target/recorded"
cd "$top/target/recorded"
echo "runs: $(grep -cE '^(inner|loop|psi|d_psi) ' stdin), lines: $(wc -l <stdin), bytes: $(cat stdin stdout | wc -c)"
