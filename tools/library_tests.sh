#!/usr/bin/env bash
# Tests the archive in build/library from C and from Rust, with the command asf, and compares it with the reference on so many seeds
# (library_tests.sh [SEEDS [FIRST]]); on a third as many it must answer the same however the modules are divided between library and customer's
# text, and on a tenth as many pairs of texts the same in whatever order imports stand, some of them twice. Over a tenth as many chains of
# editions it must decide as the reference does what is asked again, and no part that the store keeps may be stale. At the end it measures the
# stack: no call may take more than 4,096 bytes.
set -euo pipefail
cd "$(dirname "$0")/.."
seeds=${1:-5000} first=${2:-0}
. tools/machine.sh

compile() { # PROGRAM: from c/PROGRAM.c
    "${CC[@]}" -std=c11 -O2 -Wall -Wextra -Werror -Ibuild/library "c/$1.c" build/library/libasf_c.a -o "build/$1"
}
compile example
compile keep
compile driver

# what both examples print for the text of input L, and for its two modules as a library and a customer's text
tail -n +2 rust/reference/vectors/appendix/L.in >build/L.asf
head -n 3 build/L.asf >build/library.asf
tail -n +4 build/L.asf >build/customer.asf
"${RUN[@]}" build/example M2 <build/L.asf | diff c/example.out -
"${RUN[@]}" build/example M2 build/library.asf <build/customer.asf | diff c/example.out -
refusal=$("${RUN[@]}" build/example M3 <build/L.asf) && exit 1
[ "$refusal" = "refused by 6, after 0 modules: module M3, name M3, at byte 0" ]
printf 'module M1' >build/broken.asf
refusal=$("${RUN[@]}" build/example M2 build/broken.asf <build/customer.asf) && exit 1
[ "$refusal" = "refused by 2, after 0 modules: module , name , at byte 9 of the library" ]
tail -n +2 rust/reference/vectors/five/b-five-01.in >build/bound.asf
refusal=$("${RUN[@]}" build/example M <build/bound.asf) && exit 1
[ "$refusal" = "refused by 22, after 3 modules: module M, name Z, actual A, at byte 0" ]
# NorthConsole's part over editions of the library: other names inside Roles, a hidden sort there that clashes, other exports, none that is read
kept() { "${RUN[@]}" build/keep NorthConsole examples/library.asf examples/shop-north.asf "$1" examples/shop-north.asf; }
sed 's/reaches/outranks/g' examples/library.asf >build/hidden.asf
sed 's/^  functions reaches/  sorts BOOL\n&/' examples/library.asf >build/clash.asf
sed 's/ rank : ROLE/ level : ROLE/' examples/library.asf >build/exports.asf
[ "$(kept build/hidden.asf)" = $'Roles asked: 0\nkeep the part of NorthConsole' ]
told=$(kept build/clash.asf) && exit 1
[ "$told" = $'Roles asked: 10\nask NorthConsole' ]
told=$(kept build/exports.asf) && exit 1
[ "$told" = $'reason 6, module Roles, name \nask NorthConsole' ]
told=$(kept build/broken.asf) && exit 1
[ "$told" = $'2 at byte 9 of the new library\nask NorthConsole' ]
echo "the examples in C ran"
rust test --quiet
rust run --quiet --example normalise -- M2 <build/L.asf | diff c/example.out -
rust run --quiet --example normalise -- M2 build/library.asf <build/customer.asf | diff c/example.out -
editions=()
for library in examples/library.asf build/hidden.asf build/clash.asf examples/library.asf; do editions+=("$library" examples/shop-north.asf); done
rust run --quiet --example store -- NorthConsole,Roles "${editions[@]}" | diff rust/asf/examples/store.out -
tools/asf check --quiet examples/library.asf
echo "the tests and the examples in Rust ran, those of the command asf among them"

cargo build --offline --release --quiet --manifest-path rust/Cargo.toml
rust/target/release/compare proved "$seeds" "$first" "${RUN[@]}" build/driver
rust/target/release/compare divided $((seeds / 3)) "$first" "${RUN[@]}" build/driver
rust/target/release/compare imports $((seeds / 10)) "$first" "${RUN[@]}" build/driver
rust/target/release/compare decide $((seeds / 10)) "$first" "${RUN[@]}" build/driver
rust/target/release/compare chains $((seeds / 10)) "$first" | rust run --quiet --example chains
tools/stack.sh --limit 4096
