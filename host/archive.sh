#!/usr/bin/env bash
# The C library, target/staticlib/libpozkerrin.a, out of the crates that export calls, each an object of its own. The header is host/include/pozkerrin.h.
set -euo pipefail
cd "$(dirname "$0")/.."
crates=(constraints_c panoc_c panoc_number_c panoc_vector_c alm_c alm_number_c alm_vector_c alm_factory_c)
bash tools/build.sh "${crates[@]}"
cd target/staticlib
rm -f libpozkerrin.a
{ echo "create libpozkerrin.a"; printf 'addlib lib%s.a\n' "${crates[@]}"; echo "save"; echo "end"; } | ar -M
