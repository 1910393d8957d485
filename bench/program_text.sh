#!/bin/bash
# Prints an ordinary program without a fault, of about so many bytes: procedures with functions in them, and monitors.
# Usage: program_text.sh BYTES
awk -v bytes="$1" '
function put(line) { text = text line "\n" }
function monitor(k) {
    put("monitor store" k ";")
    put("  export put, take;")
    put("  var slot: array[0..7] of integer; head, count: integer; full, none: condition;")
    put("  { waits while the buffer is full, and then puts x behind the last item }")
    put("  procedure put(x: integer);")
    put("  begin")
    put("    if count = 8 then delay(full);")
    put("    slot[(head + count) mod 8] := x; count := count + 1;")
    put("    resume(none)")
    put("  end;")
    put("  procedure take(var x: integer);")
    put("  begin")
    put("    if count = 0 then delay(none);")
    put("    x := slot[head]; head := (head + 1) mod 8; count := count - 1;")
    put("    resume(full)")
    put("  end;")
    put("end;")
}
function work(k) {
    put("procedure work" k "(n: integer; var result: integer);")
    put("const size = 8;")
    put("type row = array[1..8] of integer;")
    put("var i, total: integer; slot: row; point: record x, y: integer end;")
    put("  function half(m: integer): integer;")
    put("  begin")
    put("    if m < 0 then half := -m div 2 else half := m div 2")
    put("  end;")
    put("begin")
    put("  total := 0; (* the sum so far *)")
    put("  for i := 1 to size do")
    put("    begin slot[i] := half(i * n) + i mod 3; total := total + slot[i] end;")
    put("  point.x := total; point.y := n;")
    put("  case n mod 4 of")
    put("    0: total := total + point.x;")
    put("    1, 2: total := total - point.y;")
    put("    3: while total > 100 do total := total div 2")
    put("  end;")
    put("  repeat total := total + 1 until (total >= 1) and (total <> 2147483647);")
    put("  result := total")
    put("end;")
}
BEGIN {
    put("program ordinary;")
    put("var total: integer;")
    while (length(text) + 60 * k < bytes - 1200) {
        k++
        if (k % 4 == 0) { monitor(k); calls = calls "  store" k ".put(" k ");\n" }
        work(k); calls = calls "  work" k "(" k ", total); writeln(\x27the total is \x27, total:12);\n"
    }
    printf "%sbegin\n%send.\n", text, calls
}'
