#!/usr/bin/env bash
# The stored inputs and outputs of the proved programs, made by the second program from their seeds.
# `stored.sh make` writes them; `stored.sh check` makes them again beside and fails where they differ from what is stored.
set -euo pipefail
cd "$(dirname "$0")/.."
second=second/target/release/second

# Single calls on any table, event, line and buffer.
probe_input() { $second probes 1 25000; }

# A log of five boxes with forged events, far longer than a buffer, whose last line is cut off.
replay_input() {
    $second edges 7 5 20000
    printf '0\t1\t0'
}

# The rules' whole case.
whole_case_input() { cat examples/whole-case.tsv; }

# `stored_in FOLDER`: the stdin and stdout of each program below FOLDER.
stored_in() {
    local program
    for program in probe replay whole_case; do
        mkdir -p "$1/$program"
        "${program}_input" >"$1/$program/stdin"
    done
    $second probe <"$1/probe/stdin" >"$1/probe/stdout"
    $second replay <"$1/replay/stdin" >"$1/replay/stdout"
    $second replay <"$1/whole_case/stdin" >"$1/whole_case/stdout"
}

check() {
    room=$(mktemp -d)
    trap 'rm -rf "$room"' EXIT
    stored_in "$room"
    for file in {probe,replay,whole_case}/{stdin,stdout}; do
        cmp "$room/$file" "crates/$file"
    done
    cmp examples/whole-case.answers.tsv crates/whole_case/stdout
    echo "compared calls of the probe, by answer and by kind:"
    $second count crates/probe/stdin crates/probe/stdout
    echo "compared calls of the replay, by answer and by kind:"
    $second count crates/replay/stdin crates/replay/stdout
}

case ${1-} in
make) stored_in crates ;;
check) check ;;
*)
    echo "usage: stored.sh make|check" >&2
    exit 2
    ;;
esac
