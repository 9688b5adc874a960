#!/usr/bin/env bash
# Builds the proved assignment as a static library and compares its speed with a textbook method in Rust. Needs rt and rustc.
set -euo pipefail
cd "$(dirname "$0")/../.."
(cd crates/assignment_speed && rt lib) | tail -n 1
mkdir -p target/bench
rustc -O -C target-cpu=x86-64 -L native=crates/assignment_speed/out -l static=assignment_speed bench/assignment/compare.rs -o target/bench/assignment
target/bench/assignment
