#!/usr/bin/env python3
"""Compares the code texts that a built driver prints with expected bytes.

    bench/code-texts.py DRIVER CASES [GROUP ..]

DRIVER prints the code text of the program text that it is given; bench/code.sh builds it. CASES is a folder of files GROUP.jsonl,
as for bench/meaning.py: those cases count whose words have --code, and whose output begins with the code text. Of cases with one
text the first is taken. The last line counts.
"""
import os, re, subprocess, sys, tempfile

from computed import cases_of

CODE = re.compile(r"\A(?: *\d+ +\d+ [A-Z]+(?: -?\d+)*\n)+")


def main(args):
    if len(args) < 2:
        sys.exit(__doc__)
    driver = os.path.abspath(args[0])
    good = bad = 0
    seen = set()
    with tempfile.TemporaryDirectory() as folder:
        for group, k, case in cases_of(args[1], args[2:]):
            words = case["words"]
            source = case["files"].get(words[0], "")
            code = CODE.match(case["output"]) if "--code" in words else None
            if not code or source in seen:
                continue
            seen.add(source)
            name = os.path.join(folder, "text.pas")
            with open(name, "wb") as file:
                file.write(source.encode("latin1"))
            printed = subprocess.run([driver, name], capture_output=True).stdout.decode("latin1")
            if printed == code.group(0):
                good += 1
            else:
                bad += 1
                print(f"{group} {case['case']}: {printed[:60]!r}, not {code.group(0)[:60]!r}")
    print(f"{good} the same, {bad} differ")
    sys.exit(1 if bad else 0)


main(sys.argv[1:])
