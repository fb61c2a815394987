#!/usr/bin/env bash
# The shorter comparison of `numeric::sqrt` with the processor's root. Any difference fails; where there is no C compiler it says so and passes.
set -euo pipefail
status=0
bash tests/root_compare/run.sh 1000000 || status=$?
[ "$status" -eq 3 ] && exit 0
exit "$status"
