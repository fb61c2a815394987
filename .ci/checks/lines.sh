#!/usr/bin/env bash
# What roots and transcript print on lines of another form and on input that does not end in a line feed is what tests/lines holds.
set -euo pipefail
bash tools/build.sh roots transcript
for input in tests/lines/*.in; do
  name=$(basename "$input" .in)
  if ! "target/bin/${name%%_*}" <"$input" | diff -q - "${input%.in}.out" >/dev/null; then
    echo "lines: $name prints something else than ${input%.in}.out"
    exit 1
  fi
done
echo "lines: $(ls tests/lines/*.in | wc -l) inputs print what is expected"
