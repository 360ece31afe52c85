#!/usr/bin/env bash
# Proves and builds what is named: programs, which then lie in target/bin, and the static library planner_c, in target/staticlib.
set -eu
cd "$(dirname "$0")"
mkdir -p target/bin target/staticlib
for name in "$@"; do
    if [ "$name" = planner_c ]; then
        (cd crates/planner_c && rt lib)
        cp crates/planner_c/out/libplanner_c.a target/staticlib/
    else
        (cd "crates/$name" && rt run -- --help < /dev/null > /dev/null)
        cp "crates/$name/out/$name" target/bin/
    fi
done
