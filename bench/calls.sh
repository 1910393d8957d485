#!/bin/bash
# Measures calls and processes: instructions of a call with its return, a loop with it less the same loop without; the time of
# fib(25) against the same in python3; and instructions for each action of 62 processes that each count in a loop of its own, by the
# difference of two lengths. Instructions are counted by valgrind; times are the least of five. It needs rt, valgrind and python3.
set -e
here="$(cd "$(dirname "$0")" && pwd)"
program="$here/../out/pfc"
work="$(mktemp -d)"
trap 'rm -rf "$work"' EXIT
cd "$work"
echo 'program e; begin end.' > empty.pas
"$here/../pfc" empty.pas > /dev/null

# instructions of a command
instructions() {
    valgrind --tool=callgrind --callgrind-out-file=/dev/null "$@" 2>&1 >/dev/null | sed -n 's/.*Collected : //p'
}

# the least time of five runs of a command, in microseconds
least() {
    local best=999999999999999 from till
    for _run in 1 2 3 4 5; do
        from="$(date +%s%N)"
        "$@" > /dev/null
        till="$(date +%s%N)"
        (((till - from) / 1000 < best)) && best=$(((till - from) / 1000))
    done
    echo "$best"
}

# instructions of TURNS in a text for each of them: of 6,000 less those of 1,000
for_each_turn() {
    echo "${1//TURNS/1000}" > few.pas
    echo "${1//TURNS/6000}" > more.pas
    echo "$((($(instructions "$program" more.pas --limit 100000000) - $(instructions "$program" few.pas --limit 100000000)) / 5000))"
}

with="$(for_each_turn 'program c; var i: integer; procedure q; begin end; begin for i := 1 to TURNS do q end.')"
without="$(for_each_turn 'program c; var i: integer; procedure q; begin end; begin for i := 1 to TURNS do null end.')"
echo "a call and its return: $((with - without)) instructions, of an empty procedure, two actions"

echo 'program f; function fib(n: integer): integer; begin if n < 2 then fib := n else fib := fib(n - 1) + fib(n - 2) end; begin writeln(fib(25)) end.' > fib.pas
printf 'def fib(n):\n    return n if n < 2 else fib(n - 1) + fib(n - 2)\nprint(fib(25))\n' > fib.py
own="$(least "$program" fib.pas --limit 100000000)"
py="$(least python3 fib.py)"
echo "fib(25): $own microseconds, $(python3 -c "print(round($own / $py, 2))") times as long as python3"

# four actions a turn of each process
turn="$(for_each_turn 'program m; process type p; var i, t: integer; begin t := 0; for i := 1 to TURNS do t := t + 1 end;
var a: array[1..62] of p; j: integer; begin cobegin for j := 1 to 62 do a[j] coend end.')"
echo "62 processes: $((turn / (62 * 4))) instructions an action"
