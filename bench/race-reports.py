#!/usr/bin/env python3
"""Computes the races of runs by the definitions, and counts where their lines agree with the expected ones.

    bench/race-reports.py CASES [GROUP ..] [--batch N] [--actions N] [--bytes N] [--first N] [--every N] [--keep FOLDER]

CASES is a folder of files GROUP.jsonl, as of bench/meaning.py; the cases that hold `walk --races`, the status and the output of a run with a race
report, are taken. Each becomes a sample of the lines that begin with `-- race: ` or `-- no races`, so many in a file of proofs, in a copy of the
repository, and `rt check` computes them. What it cannot compute in its number of steps is counted apart. Cases with a limit above --actions, or with
a text above --bytes are left out, and with --every N all but each N-th.
"""
import re, sys

from computed import cases_of, compute, numbers, option, text

HEAD = """-- Samples made by a script.
use Rattle.std.specs.Prelude.{◌≡◌, List, ℕ, [], ◌∷◌, ◌++◌, Some, codes, refl}
use Rattle.pfc_sched.specs.Picks.{Picking, by_turn, by_list, by_words}
use Rattle.pfc_sched.specs.Words.{stream}
use Rattle.pfc_race_samples.specs.Shows.{races_in}
"""

# a run with a race report does at most so many actions
MOST = 2000


def lines_of(output):
    """The lines of the races, behind the report."""
    return re.search(r"(?:^-- no races\n|(?:^-- race: [^\n]*\n)+)\Z", output, re.M)


def sample(name, case):
    words, files = case["words"], case["files"]
    value = lambda o, d: words[words.index(o) + 1] if o in words else d
    seed, limit = value("--seed", "1"), min(int(value("--limit", "1000000")), MOST)
    found = lines_of(case["walk --races"][1])
    if found is None:
        return None
    if "--script" in words:
        items = files[value("--script", "")].split()
        if not all(re.fullmatch(r"\d+", i) for i in items):
            return None
        picking = "(by_list %s 0)" % numbers([int(i) for i in items])
    elif "--unfair" in words:
        picking = "(by_turn 0)"
    else:
        picking = "(by_words (stream %s 1))" % seed
    data = files[value("--input", "")] if "--input" in words else ""
    run = "(races_in %s %s %s %s %d)" % (text(files[words[0]]), text(data), seed, picking, limit)
    return "%s : %s ≡ Some %s\nunfolding races_in\n%s = refl\n" % (name, run, text(found.group(0)), name)


def main(args):
    batch, actions = int(option(args, "--batch", 40)), int(option(args, "--actions", 100000000))
    most, first, every = int(option(args, "--bytes", 100000)), int(option(args, "--first", 10 ** 9)), int(option(args, "--every", 1))
    keep = option(args, "--keep", None)
    if not args:
        sys.exit(__doc__)
    samples, cases, taken = [], {}, {}
    for group, k, case in cases_of(args[0], args[1:]):
        words = case["words"]
        limit = int(words[words.index("--limit") + 1]) if "--limit" in words else MOST
        if "walk --races" not in case or k % every or taken.get(group, 0) >= first:
            continue
        if min(limit, MOST) > actions or len(case["files"][words[0]]) > most:
            continue
        name = "case_%d" % len(samples)
        s = sample(name, case)
        if s:
            samples.append(s)
            cases[name] = case["case"]
            taken[group] = taken.get(group, 0) + 1
    sys.exit(compute("pfc_race_samples", HEAD, samples, cases, batch, keep))


main(sys.argv[1:])
