#!/usr/bin/env bash
# Prints the tables of docs/PERFORMANCE.md and docs/MEASUREMENTS.md, in Markdown but for the wrapper's and the command's, which are plain columns,
# and draws docs/growth.svg. First the windows (each, the means, the growing ones, the rest), then the made-up jobs, of which the documents have the means.
# `tools/build capi` has to have built the library, `cargo build --release` the command; the machine should do nothing else. Progress goes to standard error.
# It needs Debian's packages nextpnr-generic and fpga-icestorm-chipdb. Usage: tools/measure.sh >tables.md
set -euo pipefail
cd "$(dirname "$0")/../tests"
cargo run --quiet --release --offline -p peers
echo
cargo run --quiet --release --offline -p bench
