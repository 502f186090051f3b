#!/usr/bin/env bash
# Proves the library and leaves its archive and its header in build/library. An archive exports the functions of one crate, which is `asf_archive`.
set -euo pipefail
cd "$(dirname "$0")/.."
(cd crates/asf_archive && rt lib)
mkdir -p build/library
cp crates/asf_archive/out/libasf_archive.a build/library/libasf_c.a
cp c/asf.h build/library/
echo "build/library: $(ls build/library | tr '\n' ' ')"
