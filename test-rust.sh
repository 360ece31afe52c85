#!/usr/bin/env bash
# Builds the proved static library if something changed since, then tests it from Rust and from C.
set -eu
cd "$(dirname "$0")"
archive=target/staticlib/libplanner_c.a
if [ ! -f "$archive" ] || [ -n "$(find crates crates.txt -type f -not -path '*/out/*' -newer "$archive" -print -quit)" ]; then
    bash build.sh planner_c
fi
cargo test --release --offline --manifest-path rust/Cargo.toml -- --nocapture

compile() {
    cc -std=c99 -Wall -Wextra -Werror -O2 -Ic "$1" "$archive" -o "$2"
}
compile c/test_buffers.c target/test_buffers
target/test_buffers
compile c/plan.c target/plan_c
bash c/test_plan.sh target/plan_c
echo "test-rust: ok"
