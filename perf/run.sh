#!/bin/sh
# Times smbus_code against a table-driven routine in C. Run it anywhere in the repository; it needs rt and a C compiler (CC).
set -eu
cd "$(dirname "$0")/.."
mkdir -p target/staticlib
(cd crates/smbus_c && "${RT:-rt}" lib) > target/perf.log 2>&1 || { cat target/perf.log >&2; exit 1; }
cp crates/smbus_c/out/libsmbus_c.a target/staticlib/libsmbus.a
"${CC:-cc}" -std=gnu11 -O2 -Wall -Wextra perf/bench.c target/staticlib/libsmbus.a -o target/perf_bench
echo "machine: $(sed -n 's/^model name[^:]*: //p' /proc/cpuinfo | head -n 1), $(nproc) processors"
echo "compiler of the C routine: $("${CC:-cc}" --version | head -n 1)"
target/perf_bench
