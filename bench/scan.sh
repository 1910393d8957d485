#!/bin/bash
# Counts the instructions that a scan takes for each byte of ordinary program text, at four lengths.
# The driver is built in a copy of the repository, so the gate neither proves nor runs it. It needs rt and valgrind.
set -e
here="$(cd "$(dirname "$0")" && pwd)"
work="$(mktemp -d)"
trap 'rm -rf "$work"' EXIT
mkdir -p "$work/crates/bench_scan/src"
cp -r "$here/../crates/pfc_base" "$here/../crates/pfc_scan" "$work/crates/"
cp "$here/scan_driver.txt" "$work/crates/bench_scan/src/main.rt"
grep -E '^(pfc_base|pfc_scan):' "$here/../crates.txt" > "$work/crates.txt"
echo 'bench_scan: pfc_scan' >> "$work/crates.txt"
(cd "$work/crates/bench_scan" && rt run > "$work/build.log" 2>&1) || { tail -20 "$work/build.log"; exit 1; }

# instructions of a run over these files
instructions() {
    valgrind --tool=callgrind --callgrind-out-file=/dev/null "$work/crates/bench_scan/out/bench_scan" "$@" 2>&1 >/dev/null \
        | sed -n 's/.*Collected : //p'
}

for size in 32 64 128 256; do
    bytes=$((size * 1024))
    text="$work/$size.pas"
    while [ "$(stat -c %s "$text" 2>/dev/null || echo 0)" -lt $bytes ]; do cat "$here/scan_text.pas" >> "$text"; done
    # an unfinished comment at the cut would be refused, so the rest of the length is blanks
    head -c $((bytes - bytes % $(stat -c %s "$here/scan_text.pas"))) "$text" > "$text.cut"
    head -c $((bytes - $(stat -c %s "$text.cut"))) /dev/zero | tr '\0' ' ' >> "$text.cut"
    once="$(instructions "$text.cut")"
    twice="$(instructions "$text.cut" "$text.cut")"
    echo "$size KiB: $(( (twice - once) / bytes )) instructions a byte, $("$work/crates/bench_scan/out/bench_scan" "$text.cut") tokens"
done
