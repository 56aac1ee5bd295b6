#!/usr/bin/env bash
# Translates a copy of examples/main.py and shows the files. Builds the program first, where it isn't built.
set -eu
top=$(cd "$(dirname "$0")/.." && pwd)
shed="$top/crates/shed/out/shed"
if [ ! -x "$shed" ]; then
  (cd "$top/crates/shed" && rt run >"$top/crates/shed/build.log" 2>&1) || true
fi
[ -x "$shed" ] || { echo "the program was not built: see crates/shed/build.log" >&2; exit 1; }
folder=$(mktemp -d)
trap 'rm -rf "$folder"' EXIT
cp "$top/examples/main.py" "$folder"
cd "$folder"
"$shed" translate main
for file in main.py shed-forward.hpp main.hpp main.cpp Makefile main.types; do
  printf '== %s\n' "$file"
  cat "$file"
done
