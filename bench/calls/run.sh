#!/usr/bin/env bash
# Compares the speed of the proved calls with plain ones in Rust, then counts the path searches of filling. Needs cargo, rustc and rt.
set -euo pipefail
cd "$(dirname "$0")/../.."
tools/archive
cargo run --offline --locked --release --quiet -p bench_calls
bench/searches/run.sh
