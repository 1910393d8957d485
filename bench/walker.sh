#!/bin/bash
# Measures the walker: instructions for each action of loops, calls, messages, monitors, resources, rendezvous and selects, alone and with 63
# processes; and the times of many messages and of many turns of a loop against the same with generators in python3. Instructions are
# counted by valgrind, as what 200,000 actions take more than 100,000 do, so that neither the start nor the report counts. Times
# are the least of three. It needs valgrind, python3 and a built pfcwalk.
#
#   bench/walker.sh [PROGRAM]
#
# PROGRAM is out/pfcwalk, as the script pfcwalk builds it, where none is named.
set -e
here="$(cd "$(dirname "$0")" && pwd)"
program="$(readlink -f "${1-$here/../out/pfcwalk}")"
work="$(mktemp -d)"
trap 'rm -rf "$work"' EXIT
cd "$work"
if ! [ -x "$program" ]; then
    echo 'program e; begin end.' > empty.pas
    "$here/../pfcwalk" empty.pas > /dev/null
fi

# instructions of a command
instructions() {
    valgrind --tool=callgrind --callgrind-out-file=/dev/null "$@" 2>&1 >/dev/null | sed -n 's/.*Collected : //p'
}

# the least time of three runs of a command, in milliseconds
least() {
    local best=999999999999999 from till
    for _run in 1 2 3; do
        from="$(date +%s%N)"
        "$@" > /dev/null || true
        till="$(date +%s%N)"
        (((till - from) < best)) && best=$((till - from))
    done
    echo "$((best / 1000000)).$(printf %03d $((best / 1000 % 1000)))"
}

# how many times as long as the second the first took, to two places
ratio() { python3 -c "print(round($1 / $2, 2))"; }

# actions NAME MOST TEXT: what an action of an endless program takes, of which at most MOST instructions are allowed
actions() {
    local few many
    echo "$3" > "$1.pas"
    few="$(instructions "$program" "$1.pas" --limit 100000)"
    many="$(instructions "$program" "$1.pas" --limit 200000)"
    echo "$1: $(((many - few) / 100000)) instructions an action of $2 allowed"
}

actions sum 1500 'program a; var s: integer; begin repeat s := (s + 1) mod 1000 forever end.'
actions while 1500 'program a; var i, s: integer; begin while i >= 0 do begin s := (s + i) mod 1000; i := (i + 1) mod 7 end end.'
actions array 1500 'program a; var i: integer; t: array[0..99] of integer;
begin repeat i := (i + 1) mod 100; t[i] := t[(i + 1) mod 100] div 2 + i forever end.'
actions case 1500 'program a; var i: integer; begin repeat case i of 0: i := 1; 1: i := 2; 2: i := 0 end forever end.'
actions procedure 1500 'program a; var i: integer; procedure p(n: integer; var m: integer); begin m := (m + n) mod 1000 end;
begin repeat p(3, i) forever end.'
actions function 1500 'program a; var i: integer; function f(n: integer): integer; begin if n < 1 then f := 0 else f := f(n - 1) + 1 end;
begin repeat i := f(10) forever end.'
actions semaphores 1500 'program a; var s: semaphore; procedure p; begin wait(s); signal(s) end; begin initial(s, 1); repeat p forever end.'
actions messages 1500 'program a; var c: channel of integer; process p; var i: integer; begin repeat i := i mod 100 + 1; c ! i forever end;
process q; var n: integer; begin repeat c ? n forever end; begin cobegin p; q coend end.'
actions buffer 1500 'program a; monitor b; export put, take; var t: array[0..3] of integer; n, i, o: integer; full, empty_: condition;
procedure put(v: integer); begin if n = 4 then delay(full); t[i] := v; i := (i + 1) mod 4; n := n + 1; resume(empty_) end;
procedure take(var v: integer); begin if n = 0 then delay(empty_); v := t[o]; o := (o + 1) mod 4; n := n - 1; resume(full) end; end;
process p; var i: integer; begin repeat i := i mod 100 + 1; b.put(i) forever end;
process q; var n: integer; begin repeat b.take(n) forever end; begin cobegin p; q coend end.'
actions resource 1500 'program a; resource b; export put, take; var n: integer;
guarded procedure put(v: integer) when n < 4; begin n := n + 1 end;
guarded procedure take(var v: integer) when n > 0; begin v := n; n := n - 1 end; end;
process p; var i: integer; begin repeat i := i mod 100 + 1; b.put(i) forever end;
process q; var n: integer; begin repeat b.take(n) forever end; begin cobegin p; q coend end.'
actions rendezvous 1500 'program a; process b; entry put(v: integer); var n: integer; begin repeat accept put(v: integer) do n := v forever end;
process p; var i: integer; begin repeat i := i mod 100 + 1; b.put(i) forever end; begin cobegin b; p coend end.'
actions select 1500 'program a; var c, d: channel of integer; process p; begin repeat c ! 1 forever end; process r; begin repeat d ! 2 forever end;
process q; var n: integer; begin repeat select c ? n or d ? n end forever end; begin cobegin p; q; r coend end.'
actions 'processes (63)' 3000 'program a; process type w(k: integer); var i: integer; begin repeat i := (i + k) mod 1000 forever end;
var t: array[1..62] of w; i: integer; begin cobegin for i := 1 to 62 do t[i](i) coend end.'
actions 'turnstiles (63)' 3000 'program a; var s: semaphore; process type w(k: integer); var i: integer;
begin repeat wait(s); i := (i + k) mod 1000; signal(s) forever end;
var t: array[1..62] of w; i: integer; begin initial(s, 1); cobegin for i := 1 to 62 do t[i](i) coend end.'

# against NAME TEXT PYTHON: both programs do the same so many times
against() {
    local own py
    echo "$2" > "$1.pas"
    echo "$3" > "$1.py"
    own="$(least "$program" "$1.pas" --limit 100000000)"
    py="$(least python3 "$1.py")"
    echo "$1: $own ms, $(ratio "$own" "$py") times as long as python3; $("$program" "$1.pas" --limit 100000000 | tr '\n' ' ')"
}

against loop 'program l; var i, s: integer; begin for i := 1 to 1000000 do s := s + 1; writeln(s) end.' \
'def main():
    s = 0
    for i in range(1, 1000001):
        s = s + 1
    print(s)
main()'

against generators 'program g; var c: channel of integer;
process p; var i: integer; begin for i := 1 to 200000 do c ! i end;
process q; var i, n, s: integer; begin for i := 1 to 200000 do begin c ? n; s := (s + n) mod 1000 end; writeln(s) end;
begin cobegin p; q coend end.' \
'def p(c):
    for i in range(1, 200001):
        c.append(i)
        yield
def q(c):
    s = 0
    for i in range(200000):
        while not c:
            yield
        s = (s + c.pop()) % 1000
    print(s)
def main():
    c = []
    ready = [p(c), q(c)]
    while ready:
        for one in list(ready):
            try:
                next(one)
            except StopIteration:
                ready.remove(one)
main()'
