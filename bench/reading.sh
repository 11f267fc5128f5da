#!/usr/bin/env bash
# Reads two large files with `fzncheck` (against an empty certificate) and with `wc -w`: processor seconds and memory of both.
set -eu
here="$(cd "$(dirname "$0")" && pwd)"
check="$here/../crates/fzncheck/out/fzncheck"
folder="$(mktemp -d)"
trap 'rm -rf "$folder"' EXIT
for kind in long named; do
    python3 "$here/big_file.py" "$kind" "$folder/big.fzn"
    echo "$kind: $(wc -c <"$folder/big.fzn") bytes"
    for i in 1 2 3; do
        /usr/bin/time -f "wc -w: %U user, %S system, %M KB" wc -w "$folder/big.fzn" >/dev/null
        /usr/bin/time -f "fzncheck: %U user, %S system, %M KB" "$check" "$folder/big.fzn" /dev/null || true
    done
done
