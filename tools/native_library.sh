#!/usr/bin/env bash
# For times on an aarch64 machine: leaves in build/native an archive of the library compiled for that processor, from what is proved for x86-64.
# rt runs on x86-64 alone, so the archive is made there and brought along. It is no part of what is delivered.
set -euo pipefail
cd "$(dirname "$0")/.."
(cd crates/asf_archive && rt lib --target aarch64-unknown-linux-gnu)
mkdir -p build/native
mv crates/asf_archive/out/libasf_archive.a build/native/libasf_c.a
cp c/asf.h build/native/
echo "build/native: $(ls build/native | tr '\n' ' ')"
