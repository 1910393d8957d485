#!/bin/bash
# Measures programs that are their main body alone: how long `pfc` takes to start, against python3 and an empty C program;
# instructions for each action of a loop and of a loop over an array, and the times of 3,000,000 turns of them, with a limit of
# 100,000,000 actions, against the same loops in python3; and instructions for each byte of 200 KB of main body that is compiled
# and not run. Instructions are counted by valgrind, less those of an empty program; times are the least of five. It needs rt,
# valgrind, python3 and cc.
set -e
here="$(cd "$(dirname "$0")" && pwd)"
program="$here/../out/pfc"
work="$(mktemp -d)"
trap 'rm -rf "$work"' EXIT
cd "$work"
echo 'program e; begin end.' > empty.pas
"$here/../pfc" empty.pas > /dev/null

# instructions of a command
instructions() {
    valgrind --tool=callgrind --callgrind-out-file=/dev/null "$@" 2>&1 >/dev/null | sed -n 's/.*Collected : //p'
}

# the least time of five runs of a command, so many times over, in milliseconds for each
least() {
    local times="$1" best=999999999999999 from till
    shift
    for _run in 1 2 3 4 5; do
        from="$(date +%s%N)"
        for ((i = 0; i < times; i++)); do "$@" > /dev/null; done
        till="$(date +%s%N)"
        (((till - from) / times < best)) && best=$(((till - from) / times))
    done
    echo "$((best / 1000000)).$(printf %03d $((best / 1000 % 1000)))"
}

# how many times as long as the first the second took, to two places
ratio() { python3 -c "print(round($2 / $1, 2))"; }

echo 'int main(void) { return 0; }' > empty.c
cc -O2 -o empty empty.c
: > empty.py
own="$(least 50 "$program" empty.pas)"
c="$(least 50 ./empty)"
py="$(least 20 python3 empty.py)"
none="$(instructions "$program" empty.pas)"
echo "start-up: $none instructions, $own ms; $(ratio "$c" "$own") times an empty C program; python3 takes $(ratio "$own" "$py") times as long"

# A loop in both languages: its name, its actions for each turn, its text, and the same in python3, with TURNS for the number of
# its turns. Instructions are counted over 100,000 turns, and 3,000,000 are timed.
loop() {
    local counted=100000 turns=3000000 all own py
    echo "${3//TURNS/$counted}" > "$1.pas"
    all="$(instructions "$program" "$1.pas")"
    echo "${3//TURNS/$turns}" > "$1.pas"
    echo "${4//TURNS/$turns}" > "$1.py"
    own="$(least 1 "$program" "$1.pas" --limit 100000000)"
    py="$(least 1 python3 "$1.py")"
    echo "$1: $(((all - none) / ($2 * counted))) instructions an action; $turns turns in $own ms, $(ratio "$py" "$own") times as long as python3; $("$program" "$1.pas" --limit 100000000 | tr '\n' ' ')"
}

# four actions a turn: the write of i, the read and the write of s, the turn
loop sum 4 'program s; var i, s: integer; begin for i := 1 to TURNS do s := s + 1; writeln(s) end.' \
'def main():
    s = 0
    for i in range(1, TURNS + 1):
        s = s + 1
    print(s)
main()'

# seven actions a turn: the write of i, the reads of i, i, t[..] and i, the write of t[..], the turn
loop array 7 'program t; var i: integer; t: array[0..99] of integer;
begin for i := 1 to TURNS do t[i mod 100] := t[(i + 1) mod 100] div 2 + i; writeln(t[7]) end.' \
'def main():
    t = [0] * 100
    for i in range(1, TURNS + 1):
        t[i % 100] = t[(i + 1) % 100] // 2 + i
    print(t[7])
main()'

# eight actions a turn: two reads for the test, the reads and the write of s, the read and the write of i, the turn
loop while 8 'program w; var i, n, s: integer; begin n := TURNS; while i < n do begin s := (s + i) mod 1000; i := i + 1 end; writeln(s) end.' \
'def main():
    i = s = 0
    n = TURNS
    while i < n:
        s = (s + i) % 1000
        i = i + 1
    print(s)
main()'

# 200 KB of statements that are never reached
{
    echo 'program c; var i, n: integer; b: boolean; t: array[1..10] of integer;'
    echo 'begin if false then begin'
    for ((i = 0; i < 1000; i++)); do
        echo "  n := t[i mod 10 + 1] * $i + n div 3;"
        echo '  while (n > 17) and not b do begin n := n - 1; b := odd(n) end;'
        echo '  if n = i then writeln(n:6, b) else t[n] := sqr(i + 1);'
        echo "  case n of 1, 2: i := 1; $((i + 3)): n := -i end;"
    done
    echo '  n := 0 end end.'
} > compiled.pas
bytes="$(stat -c %s compiled.pas)"
all="$(instructions "$program" compiled.pas)"
echo "compiling: $(((all - none) / bytes)) instructions a byte of $bytes; $("$program" compiled.pas | tr '\n' ' ')"
