#!/usr/bin/env bash
# Proves and builds the bench program, runs it on the shipped example, and shows each command with its answer.
set -euo pipefail
cd "$(dirname "$0")/.."
made=$(mktemp -d)
trap 'rm -rf "$made"' EXIT
echo "proving and building (some minutes the first time) .."
(cd crates/bench && rt run) <examples/track.bench >"$made/answers" 2>"$made/log" || { cat "$made/log"; exit 1; }
paste -d '\n' examples/track.bench "$made/answers" | sed 'n;s/^/    /'
