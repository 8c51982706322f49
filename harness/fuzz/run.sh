#!/bin/sh
# Fuzzes the C calls for a bounded time, 120 seconds unless said: harness/fuzz/run.sh [SECONDS].
# It is no part of the verdict. Findings are left in target/fuzz/ as crash-*, one input a file;
# target/fuzz/fuzz FILE runs one again.
#
# The target has clang's fuzzer and address sanitizer. The plain engine is compiled with the
# fuzzer's counters, and so shows it the way to new cases.
set -eu

seconds=${1:-120}
here=$(cd "$(dirname "$0")" && pwd)
root=$(cd "$here/../.." && pwd)
out=$root/target/fuzz
library=$root/target/staticlib/librecorder.a

if ! command -v clang >/dev/null || ! [ -f "$(clang -print-file-name=libclang_rt.fuzzer-x86_64.a)" ]; then
    apt-get update
    apt-get install -y --no-install-recommends clang libclang-rt-dev
fi
[ -f "$library" ] || "$root/bin/staticlib" recorder
[ -f "$root/target/staticlib/libgraph_test.a" ] || "$root/bin/staticlib" graph_test
mkdir -p "$out/corpus"

counters='-Cpasses=sancov-module -Cllvm-args=-sanitizer-coverage-level=4
-Cllvm-args=-sanitizer-coverage-inline-8bit-counters -Cllvm-args=-sanitizer-coverage-pc-table
-Cllvm-args=-sanitizer-coverage-trace-compares -Ccodegen-units=1'
RUSTFLAGS=$(echo $counters) cargo build --release --quiet --manifest-path "$here/plain/Cargo.toml" \
    --target x86_64-unknown-linux-gnu --target-dir "$out/plain"

clang -std=gnu11 -g -O1 -Wall -Wextra -fsanitize=fuzzer,address,undefined -fno-sanitize-recover=undefined \
    -I "$root/include" "$here/fuzz.c" "$here/both.c" "$here/lend.c" \
    "$out/plain/x86_64-unknown-linux-gnu/release/libplain.a" "$library" -lpthread -ldl -lm -o "$out/fuzz"

cd "$out"
ASAN_OPTIONS=detect_leaks=0 ./fuzz -max_total_time="$seconds" -max_len=400 -timeout=10 \
    -print_final_stats=1 corpus
