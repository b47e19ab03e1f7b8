#!/usr/bin/env bash
# Compares the stored test lines and answers of bench and linebench, and the examples, with the
# outside reader.
set -euo pipefail
cd "$(dirname "${BASH_SOURCE[0]}")/.."
export PYTHONDONTWRITEBYTECODE=1

made=$(mktemp -d)
trap 'rm -rf "$made"' EXIT
differences=0

# compare WHAT STORED MADE: says how many lines agree, or shows the first differences.
compare() {
    if cmp -s "$2" "$3"; then
        echo "$1: all $(LC_ALL=C grep --text -c '' "$3") lines agree"
    else
        echo "$1: differs from the stored $2"
        diff --text "$2" "$3" | head -n 10 || true
        differences=1
    fi
}

python3 outside/make_vectors.py "$made/stdin" > "$made/counts"
compare "test lines" crates/bench/stdin "$made/stdin"

python3 outside/bench_reader.py < crates/bench/stdin > "$made/stdout"
compare "answers to the test lines" crates/bench/stdout "$made/stdout"

python3 outside/make_line_vectors.py "$made/line_stdin" > "$made/line_counts"
compare "test lines of linebench" crates/linebench/stdin "$made/line_stdin"

python3 outside/linebench_reader.py < crates/linebench/stdin > "$made/line_stdout"
compare "answers to the test lines of linebench" crates/linebench/stdout "$made/line_stdout"

for example in examples/*.bench; do
    python3 outside/bench_reader.py < "$example" > "$made/answers"
    compare "answers to $example" "${example%.bench}.answers" "$made/answers"
done

exit "$differences"
