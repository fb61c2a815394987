#!/usr/bin/env bash
# Builds the archive, and runs the tests of its calls and its examples with warnings as errors: those in C plain, under sanitizers and under valgrind,
# the Rust one with its tests. What the examples print is held to host/examples/kiln.out. A tool that is not here is named, and what needs it is left out.
set -euo pipefail
cd "$(dirname "$0")/../.."
examples=host/examples
out=target/host
expected=$examples/kiln.out
tests=host/tests/calls.c
archive=target/staticlib/libpozkerrin.a

if [ "$(uname -m)" != x86_64 ]; then
  echo "host: not run, since 'rt lib' writes for x86-64 and this is $(uname -m)"
  exit 0
fi
if ! command -v ar >/dev/null; then
  echo "host: not run, since there is no ar here to put the archive together"
  exit 0
fi
mkdir -p "$out"
if ! bash host/archive.sh >"$out/archive.log" 2>&1; then
  tail -n 20 "$out/archive.log"
  exit 1
fi

held() { # held WHAT COMMAND..: what the command prints is what is expected
  local what=$1
  shift
  if ! "$@" >"$out/printed" 2>"$out/said"; then
    echo "host: $what fails"
    tail -n 20 "$out/said"
    exit 1
  fi
  if ! diff "$expected" "$out/printed"; then
    echo "host: $what prints something else than $expected"
    exit 1
  fi
  echo "host: $what prints what is expected"
}

passes() { # passes WHAT COMMAND..: the command goes well
  local what=$1
  shift
  if ! "$@" >"$out/said" 2>&1; then
    echo "host: $what fail"
    tail -n 20 "$out/said"
    exit 1
  fi
  echo "host: $what pass"
}

warnings="-std=c99 -O2 -ffp-contract=off -Wall -Wextra -Wpedantic -Werror"
compiled=
for compiler in gcc clang; do
  if ! command -v "$compiler" >/dev/null; then
    echo "host: no $compiler here"
    continue
  fi
  # shellcheck disable=SC2086
  "$compiler" $warnings -Ihost/include -o "$out/kiln_$compiler" "$examples/kiln.c" "$archive"
  held "the C example by $compiler" "$out/kiln_$compiler"
  # shellcheck disable=SC2086
  "$compiler" $warnings -Ihost/include -o "$out/calls_$compiler" "$tests" "$archive" -lm
  passes "the tests of the calls by $compiler" "$out/calls_$compiler"
  compiled=$compiler
  sanitize="-g -fsanitize=address,undefined -fno-sanitize-recover=all"
  # shellcheck disable=SC2086
  if ! echo 'int main(void) { return 0; }' | "$compiler" $sanitize -x c -o "$out/sanitized" - 2>/dev/null || ! "$out/sanitized" 2>/dev/null; then
    echo "host: $compiler has no sanitizers here"
    continue
  fi
  # shellcheck disable=SC2086
  "$compiler" $warnings $sanitize -Ihost/include -o "$out/kiln_sanitized" "$examples/kiln.c" "$archive"
  held "the C example by $compiler under sanitizers" "$out/kiln_sanitized"
  # shellcheck disable=SC2086
  "$compiler" $warnings $sanitize -Ihost/include -o "$out/calls_sanitized" "$tests" "$archive" -lm
  passes "the tests of the calls by $compiler under sanitizers" "$out/calls_sanitized"
done

if [ -z "$compiled" ]; then
  echo "host: the C example is not run"
elif command -v valgrind >/dev/null; then
  watched=(valgrind --quiet --error-exitcode=9 --leak-check=full)
  held "the C example under valgrind" "${watched[@]}" "$out/kiln_$compiled"
  passes "the tests of the calls under valgrind" "${watched[@]}" "$out/calls_$compiled" 40
else
  echo "host: no valgrind here"
fi

if ! command -v cargo >/dev/null || ! command -v cc >/dev/null; then
  echo "host: the Rust wrapper is not run, since there is no cargo, or no cc to link with"
  exit 0
fi
rust() { # rust WHAT WORDS..
  local what=$1
  shift
  if ! cargo "$what" --offline --quiet --manifest-path "$examples/rust/Cargo.toml" --target-dir "$out/cargo" "$@" >"$out/said" 2>&1; then
    tail -n 40 "$out/said"
    exit 1
  fi
}
rust test
echo "host: the tests of the Rust wrapper pass"
rust build
held "the Rust example" "$out/cargo/debug/kiln"
