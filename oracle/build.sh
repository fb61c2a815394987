#!/usr/bin/env bash
# Copies the listed Rust files unchanged, puts our stand-ins beside them, and builds the oracle.
set -euo pipefail
cd "$(dirname "$0")"
bash copy.sh rust
cargo build --release --offline --quiet
