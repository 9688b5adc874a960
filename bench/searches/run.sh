#!/usr/bin/env bash
# Counts the path searches of filling on the plants of bench/calls. Needs rt and rustc.
set -euo pipefail
cd "$(dirname "$0")/../.."
(cd crates/searches_c && rt lib) | tail -n 1
mkdir -p target/bench target/staticlib
cp crates/searches_c/out/libsearches_c.a target/staticlib/libsearches.a
rustc -O -L native=target/staticlib -l static=searches bench/searches/count.rs -o target/bench/searches
target/bench/searches
