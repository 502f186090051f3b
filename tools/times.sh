#!/usr/bin/env bash
# Times of the library beside those of the reference, as a table (times.sh [HOW OFTEN]), and those of a decision whether a part may be kept beside
# those of a call. On x86-64 the archive of build/library is timed; on aarch64, where its programs run under an emulator, that of build/native,
# which tools/native_library.sh makes on x86-64.
set -euo pipefail
cd "$(dirname "$0")/.."
library=build/library
[ "$(uname -m)" = x86_64 ] || library=build/native
gcc -std=c11 -O2 -I$library c/driver.c $library/libasf_c.a -Wl,--gc-sections -o $library/driver
cargo build --offline --profile timing --quiet --manifest-path rust/Cargo.toml
echo "$library on $(uname -m)"
rust/target/timing/compare time "${1:-20}" $library/driver
echo
rust/target/timing/compare time-decisions "${1:-20}" $library/driver
