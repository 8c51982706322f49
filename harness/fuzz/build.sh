#!/bin/sh
# Builds the fuzz target without the fuzzer, so that a change of a call that it does not follow is seen at once: harness/fuzz/build.sh. The gate
# does so. target/fuzz/one FILE runs one input. It takes gcc and cargo, or what the environment names as CC and CARGO.
set -eu
here=$(cd "$(dirname "$0")" && pwd)
root=$(cd "$here/../.." && pwd)
out=$root/target/fuzz
"${CARGO:-cargo}" build --offline --quiet --manifest-path "$here/plain/Cargo.toml" --target x86_64-unknown-linux-gnu --target-dir "$out/plain"
"${CC:-gcc}" -std=gnu11 -O1 -Wall -Wextra -Werror -I "$root/include" "$here/fuzz.c" "$here/both.c" "$here/lend.c" "$here/one.c" \
    "$out/plain/x86_64-unknown-linux-gnu/debug/libplain.a" "$root/target/staticlib/librecorder.a" -lpthread -ldl -lm -o "$out/one"
