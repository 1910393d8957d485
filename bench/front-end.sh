#!/bin/bash
# Counts the instructions that the program `pfc` takes for each byte of ordinary program text, at four lengths: up to a
# refusal by the scanner at the end of the text, up to one by the parser there, and for a text without a fault, which the
# checker sees whole. Then it counts those of scanner and parser for each token of a text of calls, with as many tokens
# as bytes. Each count is less that of the same refusal of a short text. It needs rt and valgrind.
set -e
here="$(cd "$(dirname "$0")" && pwd)"
program="$here/../out/pfc"
work="$(mktemp -d)"
trap 'rm -rf "$work"' EXIT
printf 'program a; begin end.' > "$work/short.pas"
"$here/../pfc" "$work/short.pas" > /dev/null || true

# the three texts of a program: with a byte at its end that begins no token, without its final `.`, and as it is
variants() {
    { cat "$1"; echo '$'; } > "$1.scanned"
    sed '$ s/\.$//' "$1" > "$1.parsed"
    cp "$1" "$1.checked"
}

# instructions of a run over a file
instructions() {
    valgrind --tool=callgrind --callgrind-out-file=/dev/null "$program" "$1" 2>&1 >/dev/null | sed -n 's/.*Collected : //p'
}

variants "$work/short.pas"
for size in 32 64 128 256; do
    text="$work/$size.pas"
    "$here/program_text.sh" $((size * 1024)) > "$text"
    variants "$text"
    bytes="$(stat -c %s "$text")"
    line="$size KiB:"
    for step in scanned parsed checked; do
        all="$(instructions "$text.$step")"
        none="$(instructions "$work/short.pas.$step")"
        line="$line $(((all - none) / bytes)) instructions a byte $step,"
    done
    echo "$line $("$program" "$text.checked" | head -c 60)"
done

# a text with so many tokens, a call and a `;` in turn, without its final `.`
calls() {
    printf 'program a; begin '
    head -c "$1" /dev/zero | sed 's/\x00\x00/a;/g'
    printf ' end'
}

none="$(instructions "$work/short.pas.parsed")"
for tokens in 10000 65000 130000 260000; do
    calls $tokens > "$work/calls.pas"
    all="$(instructions "$work/calls.pas")"
    echo "$tokens tokens: $(((all - none) / tokens)) instructions a token scanned and parsed"
done
