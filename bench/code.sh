#!/bin/bash
# Counts the instructions that it takes for each byte of a program text from bytes to image, at four lengths of two texts: ordinary
# procedures and monitors, and a text in which every construct occurs. With a folder of cases, as for bench/meaning.py, it counts too
# where the code texts of these agree. The driver is built in a copy of the repository, so the gate neither proves nor runs it; what is
# freed behind the image is not counted. It needs rt and valgrind.
# Usage: code.sh [CASES]
set -e
here="$(cd "$(dirname "$0")" && pwd)"
work="$(mktemp -d)"
trap 'rm -rf "$work"' EXIT
mkdir "$work/crates"
sed '/^## programs/,$ d' "$here/../crates.txt" > "$work/crates.txt"
sed -n 's/^\(pfc_[a-z_]*\):.*/\1/p' "$work/crates.txt" | while read -r crate; do cp -r "$here/../crates/$crate" "$work/crates/"; done
mkdir -p "$work/crates/bench_code/src"
cp "$here/code_driver.txt" "$work/crates/bench_code/src/main.rt"
echo 'bench_code: pfc_base pfc_scan pfc_parse pfc_check pfc_code pfc_generator' >> "$work/crates.txt"
(cd "$work/crates/bench_code" && rt run > "$work/build.log" 2>&1) || { tail -20 "$work/build.log"; exit 1; }
driver="$work/crates/bench_code/out/bench_code"

# instructions of a run over a file
instructions() {
    valgrind --tool=callgrind --callgrind-out-file=/dev/null "$driver" count "$1" 2>&1 >/dev/null | sed -n 's/.*Collected : //p'
}

printf 'program a; begin end.' > "$work/short.pas"
none="$(instructions "$work/short.pas")"
for of in program construct; do
    for size in 32 64 128 256; do
        text="$work/$size.pas"
        "$here/${of}_text.sh" $((size * 1024)) > "$text"
        all="$(instructions "$text")"
        bytes="$(stat -c %s "$text")"
        echo "$of text, $size KiB: $(((all - none) / bytes)) instructions a byte, $("$driver" count "$text") instructions of code"
    done
done
[ $# = 0 ] || "$here/code-texts.py" "$driver" "$1"
