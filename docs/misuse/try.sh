#!/usr/bin/env bash
# Tries the two mistakes that must not build. In a scratch copy of the check and the crates below it,
# each wrong.txt must be refused with the error of its error.txt, and each right.txt must be proved.
set -euo pipefail
top="$(cd "$(dirname "${BASH_SOURCE[0]}")/../.." && pwd)"
scratch="$(mktemp -d)"
trap 'rm -rf "$scratch"' EXIT
mkdir -p "$scratch/crates/misuse/src"
for crate in model rows loads checking; do
    mkdir "$scratch/crates/$crate"
    cp -a "$top/crates/$crate/"{src,specs,proofs} "$scratch/crates/$crate/"
    grep "^$crate:" "$top/crates.txt" >> "$scratch/crates.txt"
done
echo "misuse: model rows loads checking" >> "$scratch/crates.txt"
cd "$scratch/crates/misuse"

# Checks the text $1 as a crate of its own, and leaves what was printed in said.
try() {
    cp "$1" src/lib.rt
    rt check > "$scratch/said" 2>&1
}

failed=0
for case in "$top"/docs/misuse/*/; do
    name="$(basename "$case")"
    error="$(cat "$case/error.txt")"
    if try "$case/wrong.txt" || ! grep -qF "error[$error]" "$scratch/said"; then
        echo "misuse $name: NOT refused with $error"
        tail -n 5 "$scratch/said"
        failed=1
    else
        echo "misuse $name: refused with $error, as it must be"
    fi
    if try "$case/right.txt"; then
        echo "misuse $name: the right order is proved"
    else
        echo "misuse $name: the right order is NOT proved"
        tail -n 5 "$scratch/said"
        failed=1
    fi
done
exit "$failed"
