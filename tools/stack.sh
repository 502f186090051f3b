#!/usr/bin/env bash
# Tells the most stack that a call of the library takes, over every vector, the texts that are timed and deep ones; c/stack.c says what counts.
# stack.sh [native|all] [--limit BYTES] measures the archive in build/library or, with `native`, the one that tools/native_library.sh makes for
# aarch64, and fails where a call takes more than the limit. Under an emulator texts that take long are left out, but not with `all`.
set -euo pipefail
cd "$(dirname "$0")/.."
library=build/library limit= long=
while [ $# -gt 0 ]; do
    case $1 in
    native) library=build/native ;;
    all) long=too ;;
    --limit) limit=$2 && shift ;;
    *) echo "usage: tools/stack.sh [native|all] [--limit BYTES]" >&2 && exit 2 ;;
    esac
    shift
done
if [ $library = build/native ]; then
    . tools/machine.sh cargo
    CC=(cc) RUN=()
else
    . tools/machine.sh
fi

# -z now: what the library calls in the C library is found before it is called, for finding it takes stack too
"${CC[@]}" -std=c11 -O2 -Wall -Wextra -Werror -pthread -I$library c/stack.c $library/libasf_c.a -Wl,-z,now -o $library/stack
cargo build --offline --release --quiet --manifest-path rust/Cargo.toml
rm -rf build/texts
rust/target/release/compare texts build/texts
inputs=(rust/reference/vectors/*/*.in build/texts/*.in)
[ ${#RUN[@]} -gt 0 ] && [ -z "$long" ] || inputs+=(build/texts/long/*.in)
"${RUN[@]}" $library/stack "${inputs[@]}" | sort -rn >$library/stack.txt

echo "bytes of stack that a call in $library takes, the most of ${#inputs[@]} inputs first"
grep asf_normalise $library/stack.txt | sed -n 1,5p
for other in asf_fetch asf_decide asf_module_name asf_line asf_visible; do grep -m 1 $other $library/stack.txt; done
[ -n "$limit" ] || exit 0
over=$(awk -v limit="$limit" '$1 > limit + 0' $library/stack.txt)
[ -z "$over" ] && exit 0
echo "tools/stack.sh: $(wc -l <<<"$over") calls take more than $limit bytes of stack, the most of them $(head -n 1 <<<"$over")" >&2
exit 1
