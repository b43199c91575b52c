#!/bin/sh
# Builds the static library of the crate `shell`, links the C program beside this script with it, and compares what the program prints
# with expected.txt. Ends with a status other than 0 where something fails or differs. Run from anywhere; nothing is left in the tree
# but what rt writes under crates/*/out/.
set -eu

here=$(cd "$(dirname "$0")" && pwd)
cd "$here/../.."

work=$(mktemp -d)
trap 'rm -rf "$work"' EXIT

if ! (cd crates/shell && rt lib) >"$work/log" 2>&1; then
    cat "$work/log" >&2
    echo "c_shell: rt lib failed in crates/shell" >&2
    exit 1
fi
gcc -std=c11 -O2 -Wall -Wextra -Wpedantic -Werror -Icrates/shell tests/c_shell/table.c crates/shell/out/libshell.a -o "$work/table"
"$work/table" >"$work/printed.txt"
if ! diff -u tests/c_shell/expected.txt "$work/printed.txt"; then
    echo "c_shell: the C program printed something else than tests/c_shell/expected.txt" >&2
    exit 1
fi
echo "c_shell: the C program's table is as expected"
