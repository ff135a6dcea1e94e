#!/usr/bin/env bash
# The replay of RECORDS records with five boxes, the proved program beside the second one, both x86-64 and both run the same way:
# natively on x86-64, else under Debian's emulator. Prints each turn's user seconds and the ratio of the sums.
set -euo pipefail
cd "$(dirname "$0")/.."
records=${1:-100000}
turns=${2:-9}
room=$(mktemp -d)
trap 'rm -rf "$room"' EXIT

(cd crates/replay && rt run </dev/null >/dev/null)
cargo build --release --quiet --manifest-path second/Cargo.toml
second=$PWD/second/target/release/second
emulator=
if [ "$(uname -m)" != x86_64 ]; then
    # Debian's packages: qemu-user gcc-x86-64-linux-gnu libc6-dev:amd64 libgcc-s1:amd64 rustc libstd-rust-dev:amd64
    emulator=qemu-x86_64
    build=(/usr/bin/rustc --edition 2021 -C opt-level=3 -C target-feature=+crt-static --target x86_64-unknown-linux-gnu -C linker=x86_64-linux-gnu-gcc)
    "${build[@]}" --crate-name second --crate-type rlib second/src/lib.rs -o "$room/libsecond.rlib"
    "${build[@]}" --crate-name second_x86_64 --extern second="$room/libsecond.rlib" second/src/main.rs -o "$room/second"
else
    cp "$second" "$room/second"
fi

"$second" runs 42 5 "$records" >"$room/log"
for _ in $(seq "$turns"); do
    /usr/bin/time -a -o "$room/ours" -f %U $emulator crates/replay/out/replay <"$room/log" >"$room/ours.out"
    /usr/bin/time -a -o "$room/theirs" -f %U $emulator "$room/second" replay <"$room/log" >"$room/theirs.out"
    cmp "$room/ours.out" "$room/theirs.out"
done
echo "proved: $(paste -sd' ' "$room/ours")"
echo "second: $(paste -sd' ' "$room/theirs")"
awk 'FNR == NR { ours += $1; next } { theirs += $1 } END { printf "ratio: %.2f\n", ours / theirs }' "$room/ours" "$room/theirs"
