#!/bin/sh
# Proves and builds the benchmark, and runs it with times.
set -eu
cd "$(dirname "$0")/../crates/bench"
exec rt run -- times
