#!/bin/bash
# Prints an ordinary program without a fault, of about so many bytes, in which every construct occurs: servers with entries, selects of all
# kinds and requeues, workers with semaphores and channels, monitors, resources, procedures and functions, input and output.
# Usage: construct_text.sh BYTES
awk -v bytes="$1" '
function put(line) { text = text line "\n" }
function server(k) {
    put("process type server" k ";")
    put("  entry fetch(index: integer; var item: integer); entry stop;")
    put("var items: array[0..9] of integer; i, served: integer; running: boolean;")
    put("begin")
    put("  { answers until it is told to stop }")
    put("  served := 0; running := true;")
    put("  for i := 0 to 9 do items[i] := i * i - " k " mod 7;")
    put("  while running do")
    put("    select")
    put("      when served < 100 => accept fetch(index: integer; var item: integer) do")
    put("        begin item := items[index mod 10]; served := served + 1 end")
    put("    or")
    put("      accept stop; running := false;")
    put("    or")
    put("      for i := 0 to 2 replicate lines[i] ? served; served := served mod 50;")
    put("    or")
    put("      timeout 20; running := served < 90")
    put("    end")
    put("end;")
    put("process type worker" k "(number: integer);")
    put("var value, turn: integer; line: record first, second: integer end;")
    put("begin")
    put("  for turn := 1 to number do")
    put("  begin")
    put("    wait(permits); count := count + 1; signal(permits);")
    put("    lines[number mod 3] ! value + turn;")
    put("    lines[turn mod 3] ? value;")
    put("    line.first := value; line.second := line.first - turn;")
    put("    select ticks ! any; else null end;")
    put("    case line.second mod 3 of")
    put("      0: sleep(1);")
    put("      1, 2: value := random(10) + line.second div 2")
    put("    end;")
    put("    writeln(\x27worker \x27, number, \x27 has \x27, value:6)")
    put("  end")
    put("end;")
}
function bystander(k) {
    put("process type bystander" k ";")
    put("  entry go;")
    put("var seen: integer;")
    put("begin")
    put("  repeat")
    put("    pri select")
    put("      accept go do write(\x27seen \x27, seen:1); seen := seen + 1;")
    put("    or")
    put("      ticks ? any;")
    put("    or")
    put("      terminate")
    put("    end")
    put("  forever")
    put("end;")
}
function monitor(k) {
    put("monitor store" k ";")
    put("  export keep, take;")
    put("  var slot: array[0..7] of integer; head, used: integer; full, none: condition;")
    put("  procedure keep(x: integer);")
    put("  begin")
    put("    if used = 8 then delay(full);")
    put("    slot[(head + used) mod 8] := x; used := used + 1;")
    put("    resume(none)")
    put("  end;")
    put("  procedure take(var x: integer);")
    put("  begin")
    put("    if empty(none) and (used = 0) then delay(none, 1);")
    put("    x := slot[head]; head := (head + 1) mod 8; used := used - 1;")
    put("    resume(full)")
    put("  end;")
    put("begin head := 0; used := 0 end;")
}
function resource(k) {
    put("resource gate" k ";")
    put("  export enter, leave;")
    put("  var free, line: integer;")
    put("  guarded procedure pass when line > 0;")
    put("  begin line := line - 1; free := free - 1 end;")
    put("  guarded procedure enter when free > 0;")
    put("  begin if free > 2 then free := free - 1 else begin line := line + 1; requeue pass end end;")
    put("  guarded procedure leave when free < 5;")
    put("  begin free := free + 1 end;")
    put("begin free := 5; line := 0 end;")
}
function work(k) {
    put("procedure work" k "(n: integer; var result: integer);")
    put("const size = 8;")
    put("type row = array[1..8] of integer;")
    put("var i, total: integer; slot: row;")
    put("  function half(m: integer): integer;")
    put("  begin")
    put("    if m < 0 then half := -m div 2 else half := m div 2")
    put("  end;")
    put("begin")
    put("  total := 0; (* the sum so far *)")
    put("  for i := 1 to size do")
    put("    begin slot[i] := half(i * n) + i mod 3; total := total + slot[i] end;")
    put("  for i := size downto 1 do if odd(i) then null else slot[i] := succ(slot[i]);")
    put("  if eof then total := clock else if eoln then readln else read(i);")
    put("  repeat total := total + 1 until (total >= 1) and (total <> 2147483647);")
    put("  store" k ".keep(total); gate" k ".enter; gate" k ".leave;")
    put("  store" k ".take(result)")
    put("end;")
}
BEGIN {
    put("program constructs;")
    put("var count, total: integer; permits: semaphore; lines: array[0..2] of channel of integer; ticks: channel of synchronous;")
    while (length(text) + length(declared) + length(calls) < bytes - 4700) {
        k++
        server(k); bystander(k); monitor(k); resource(k); work(k)
        declared = declared "  servers" k ": server" k "; bystanders" k ": bystander" k "; workers" k ": array[1..2] of worker" k ";\n"
        calls = calls "  work" k "(" k ", total); write(\x27the total is \x27, total:12); writeln;\n"
        calls = calls "  cobegin servers" k "; bystanders" k "; workers" k "[1](3); workers" k "[2](" k " mod 5) coend;\n"
    }
    printf "%svar\n%sbegin\n  initial(permits, 1);\n%send.\n", text, declared, calls
}'
