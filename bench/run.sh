#!/usr/bin/env bash
# run.sh [ROUNDS]: measures the C library beside the original Rust and other solvers, in one run on one machine, and prints tables in Markdown.
# What is not here (cargo, the Rust source, dlib, NLopt) is named and left out. ARCHIVE names an archive that is built already. OLD names an older one to
# measure beside it, and OLD_INCLUDE the folder of its header.
set -euo pipefail
cd "$(dirname "$0")/.."
rounds=${1:-2000}
out=target/bench
mkdir -p "$out"
if [ "$(uname -m)" != x86_64 ]; then
  echo "bench: 'rt lib' writes for x86-64 and this is $(uname -m)" >&2
  exit 2
fi
cc=${CC:-gcc}
if ! command -v "$cc" >/dev/null; then
  echo "bench: there is no C compiler here (CC, or gcc)" >&2
  exit 2
fi

archive=${ARCHIVE:-target/staticlib/libpozkerrin.a}
if [ -z "${ARCHIVE:-}" ] && ! bash host/archive.sh >"$out/archive.log" 2>&1; then
  tail -n 20 "$out/archive.log" >&2
  exit 1
fi

flags="-std=c11 -D_POSIX_C_SOURCE=200809L -O3 -ffp-contract=off -Wall -Wextra -Werror -Ihost/include"
compile() { # compile OUTPUT WORDS..
  # shellcheck disable=SC2086
  "$cc" $flags -o "$out/$1" "${@:2}"
}
compile models.o -c bench/c/models.c
compile library.o -c bench/c/library.c

# the older archive: its calls, and the functions that make them, get names of their own
old=()
if [ -n "${OLD:-}" ]; then
  host=bench/c/library.c
  if grep -q pkr_w6 "${OLD_INCLUDE:?OLD wants OLD_INCLUDE, the folder of its header}/pozkerrin.h"; then host=bench/c/arrays.c; fi
  "$cc" ${flags/host\/include/$OLD_INCLUDE} -c -o "$out/old.o" "$host"
  { nm -g --defined-only "$OLD" | awk '$2 == "T" { print $3, "old_" $3 }'; printf 'library_%s old_%s\n' inner inner loop loop psi psi d_psi d_psi; } >"$out/old.names"
  objcopy --redefine-syms="$out/old.names" "$out/old.o"
  objcopy --redefine-syms="$out/old.names" "$OLD" "$out/libold.a"
  old=(-DHAVE_OLD "$out/old.o" "$out/libold.a")
fi

# the original Rust, with its files copied beside our stand-ins
rust=()
if command -v cargo >/dev/null && [ -d ../shared/docs/src ]; then
  bash oracle/copy.sh "$out/engine"
  cp bench/rust/engine.toml "$out/engine/Cargo.toml"
  cargo build --release --offline --quiet --manifest-path bench/rust/Cargo.toml --target-dir "$out/cargo"
  # shellcheck disable=SC2016
  rust=(-DHAVE_RUST "-L$out/cargo/release" -lrust_engine '-Wl,-rpath,$ORIGIN/cargo/release')
fi

# the other solvers
peers=()
libraries=()
missing=
# its own loops are quicker on 24 numbers than calls of a BLAS, so its BLAS bindings are left out
if command -v g++ >/dev/null && g++ -std=c++14 -O3 -DNDEBUG -DDLIB_MATRIx_BLAS_BINDINGS_ -ffp-contract=off -c -o "$out/dlib.o" bench/peers/dlib.cpp 2>"$out/dlib.log"; then
  peers+=(-DHAVE_DLIB "$out/dlib.o")
  libraries+=(-lstdc++)
else
  missing="$missing dlib (Debian: libdlib-dev, g++)."
fi
if compile nlopt.o -c bench/peers/nlopt.c 2>"$out/nlopt.log"; then
  peers+=(-DHAVE_NLOPT "$out/nlopt.o")
  libraries+=(-lnlopt)
else
  missing="$missing NLopt (Debian: libnlopt-dev)."
fi

processor=$(sed -n 's/^model name[^:]*: //p' /proc/cpuinfo | head -n 1)
echo "Processor: ${processor:-unknown}, $(nproc) in use, load $(cut -d ' ' -f 1 /proc/loadavg). $("$cc" --version | head -n 1). $(rustc --version 2>/dev/null || echo 'No rustc')."
echo
echo "### The engine"
echo
compile engine_times bench/c/engine.c "$out/library.o" "$out/models.o" "$archive" "${old[@]}" "${rust[@]}" -lm
"$out/engine_times" "$rounds"
if [ ${#rust[@]} -eq 0 ]; then
  echo
  echo "Not beside the Rust: there is no cargo, or no Rust source at ../shared/docs/src."
fi
echo
echo "### A kiln plan, 24 periods"
echo
compile plans bench/c/plans.c "$out/library.o" "$out/models.o" "$archive" "${peers[@]}" "${rust[@]}" "${libraries[@]}" -lm
"$out/plans" "$rounds"
if [ -n "$missing" ]; then
  echo
  echo "Not here:$missing"
fi
echo
echo "### Stack and sizes"
echo
# bound at the start, so that the first call of memcpy does not count
compile stack bench/c/stack.c "$out/models.o" "$archive" -lm -Wl,-z,now
"$out/stack"
echo
echo "Bytes of the archive: $(stat -c %s "$archive"); of its code and constants: $(size "$archive" | awk 'NR > 1 { sum += $1 } END { print sum }')."
echo
echo "### Ready-made sets"
echo
compile sets bench/c/sets.c "$out/models.o" "$archive" "${old[@]}" -lm
"$out/sets" "$rounds"
echo
echo "### Calls by value inside Rattle"
echo
if ! bash tools/build.sh values >"$out/values.log" 2>&1; then
  tail -n 20 "$out/values.log" >&2
  exit 1
fi
compile values bench/c/values.c "$out/library.o" "$out/models.o" target/staticlib/libvalues.a "$archive" "${rust[@]}" -lm
"$out/values"
echo
echo "### The root"
echo
echo '```'
bash tests/root_compare/run.sh 1000000
echo '```'
