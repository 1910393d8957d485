#!/usr/bin/env python3
"""Runs texts on the machine of the whole language, and counts where output, report and trace are the expected ones.

    bench/machine-runs.py CASES [GROUP ..] [--first N] [--every N] [--show N] [--seconds N]

CASES is a folder of files GROUP.jsonl, as of bench/meaning.py; --code is left out of the words, and a case that holds `walk --trace` is compared
with that, too. It tells each action, which no program does: bench/machine_driver.txt is tried by `rt try`, without a proof, in a copy of the repository, so
many seconds long. --show N prints each action of the N-th case that is taken, from 0, and what it writes. It needs rt.
"""
import os, re, shutil, subprocess, sys, tempfile

from computed import cases_of, option, root

NAME = "bench_machine"
CODE = re.compile(r"\A(?: *\d+ +\d+ [A-Z]+[A-Z0-9]*(?: -?\d+)*\n)+")
USED = """pfc_base pfc_io pfc_values pfc_code pfc_scan pfc_parse pfc_check pfc_generator pfc_state pfc_world pfc_sched pfc_machines
pfc_machine_acts pfc_report"""


def data_of(case, shown):
    """What the driver reads of a case."""
    words, files = case["words"], case["files"]
    value = lambda o, d: words[words.index(o) + 1] if o in words else d
    by = 2 if "--script" in words else 1 if "--unfair" in words else 0
    pieces = [files[words[0]], files.get(value("--input", None), ""), files.get(value("--script", None), "")]
    numbers = [by, int(shown), value("--seed", 1), value("--limit", 1000000), *map(len, pieces)]
    return " ".join(map(str, numbers)) + "\n" + "".join(pieces)


def sum_of(numbers):
    total = 7
    for n in numbers:
        total = (total * 31 + n) & 0xffffffff
    return total


def differences(case, line):
    """In what a case differs from the line that the driver printed of it; None where it has no run."""
    if line == "refused":
        return ["it is refused"] if case["status"] in (0, 3, 4, 5) else None
    actions, who, length, bytes_ = map(int, line.split())
    output = case["output"].encode("latin1")
    if "--code" in case["words"]:
        output = CODE.sub("", case["output"]).encode("latin1")
    found = []
    if (length, bytes_) != (len(output), sum_of(output)):
        found.append("output")
    if "walk --trace" in case:
        trace = [int(n) for n in case["walk --trace"][1].split()]
        if (actions, who) != (len(trace), sum_of([n + 1 for n in trace])):
            found.append("trace")
    return found


def printed(data, seconds):
    """What the driver prints of all cases."""
    with tempfile.TemporaryDirectory() as work:
        lab = os.path.join(work, "copy")
        shutil.copytree(root, lab, ignore=shutil.ignore_patterns(".git", "out"))
        folder = os.path.join(lab, "crates", NAME)
        os.makedirs(os.path.join(folder, "src"))
        shutil.copy(os.path.join(root, "bench", "machine_driver.txt"), os.path.join(folder, "src", "main.rt"))
        with open(os.path.join(lab, "crates.txt"), "a") as file:
            file.write("%s: %s\n" % (NAME, " ".join(USED.split())))
        with open(os.path.join(work, "cases"), "wb") as file:
            file.write(data.encode("latin1"))
        p = subprocess.run(["rt", "try", "--seconds", str(seconds), "--data", "cases=" + os.path.join(work, "cases")], cwd=folder, capture_output=True)
        if "status=0" not in p.stderr.decode():
            sys.exit(p.stderr.decode()[-3000:])
        return p.stdout.decode("latin1")


def main(args):
    first, every = int(option(args, "--first", 10 ** 9)), int(option(args, "--every", 1))
    show, seconds = option(args, "--show", None), int(option(args, "--seconds", 900))
    if not args:
        sys.exit(__doc__)
    taken = [(g, case) for g, _k, case in cases_of(args[0], args[1:])][::every][:first]
    if show is not None:
        print(printed(data_of(taken[int(show)][1], True), seconds))
        return
    lines = printed("".join(data_of(case, False) for _g, case in taken), seconds).splitlines()
    good = bad = none = 0
    for (group, case), line in zip(taken, lines, strict=True):
        found = differences(case, line)
        if found is None:
            none += 1
        elif not found:
            good += 1
        else:
            bad += 1
            print("%s %s: %s" % (group, case["case"], ", ".join(found)))
    print("%d as expected, %d differ, %d without a run" % (good, bad, none))
    sys.exit(1 if bad else 0)


main(sys.argv[1:])
