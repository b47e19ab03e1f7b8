#!/usr/bin/env bash
# Shows that the compiler refuses each program that breaks a protocol, for the right reason, and accepts its lawful twin.
# Each line of pairs.txt names a lawful program, its unlawful twin, the crates that they use, and the words that the refusal must hold.
set -euo pipefail
here=$(cd "$(dirname "$0")" && pwd)
root=$(cd "$here/../.." && pwd)
work=$(mktemp -d)
trap 'rm -rf "$work"' EXIT

fail() { echo "refused programs: $*" >&2; exit 1; }

# A repository with the crates that are named and one program of ours, as the library `trial`.
lay() { # PROGRAM CRATES
    rm -rf "$work/crates/trial"
    mkdir -p "$work/crates/trial/src"
    cp "$here/$1.txt" "$work/crates/trial/src/lib.rt"
    grep -v '^#' "$root/crates.txt" | grep -E "^(${2// /|}):" >"$work/crates.txt"
    echo "trial: $2" >>"$work/crates.txt"
    for c in $2; do
        [ -d "$work/crates/$c" ] || { mkdir -p "$work/crates" && cp -r "$root/crates/$c" "$work/crates/$c"; }
    done
}

while IFS='|' read -r lawful unlawful crates words; do
    case $lawful in '' | '#'*) continue ;; esac
    lay "$lawful" "$crates"
    (cd "$work/crates/trial" && rt check) >"$work/said" 2>&1 || { cat "$work/said"; fail "$lawful should be accepted"; }
    lay "$unlawful" "$crates"
    if (cd "$work/crates/trial" && rt check) >"$work/said" 2>&1; then fail "$unlawful should be refused"; fi
    grep -qF "$words" "$work/said" || { cat "$work/said"; fail "$unlawful is refused for another reason than: $words"; }
    echo "refused programs: $unlawful is refused ($words), $lawful is accepted"
done <"$here/pairs.txt"
