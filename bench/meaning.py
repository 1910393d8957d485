#!/usr/bin/env python3
"""Computes runs of texts by the definitions of the meaning, and counts where they agree with the expected bytes.

    bench/meaning.py CASES [GROUP ..] [--batch N] [--actions N] [--bytes N] [--first N] [--every N] [--trace] [--keep FOLDER]

CASES is a folder of files GROUP.jsonl. Each line is a case: `words` (a program's command line: FILE, --seed, --unfair,
--limit, --input, --script, and --code, which is left out), `files` by their names, and the `output` that is expected; where
it holds `walk --trace`, the trace that is expected, which --trace compares too. Each case becomes a sample, so many in a file
of proofs, in a copy of the repository, and `rt check` computes them. What it cannot compute in its number of steps is
counted apart. Cases with a limit above --actions, whose expected run is long, or with a text above --bytes are left out, and
with --every N all but each N-th.
"""
import re, sys

from computed import cases_of, compute, numbers, option, text

FAULTS = ["Overflow", "Division", "Index", "Range", "Case", "Stack", "InputEnd", "NoInteger", "Active", "Negative", "Count",
          "NotActive", "Closed", "Below", "Late", "Width"]
HEAD = """-- Samples made by a script.
use Rattle.std.specs.Prelude.{◌≡◌, List, ℕ, [], ◌∷◌, ◌++◌, codes, refl}
use Rattle.pfc_base.specs.declared.faults.RunFault.TheVariants.{%s}
use Rattle.pfc_state.specs.declared.endings.Ending.TheVariants.{Finished, Fault, Deadlock, Limit, Script}
use Rattle.pfc_state.specs.declared.endings.ScriptWhy.TheVariants.{NotReady, NoProcess, Ended}
use Rattle.pfc_sched.specs.Picks.{Picking, by_turn, by_list, by_words}
use Rattle.pfc_sched.specs.Words.{stream}
use Rattle.pfc_samples.specs.Shows.{told_of, untraced, tells, stands}
""" % ", ".join(f if f != "Count" else "Count" for f in FAULTS)


def expected(output):
    """The bytes before the report, the ending and the standings."""
    lines = output.split("\n")
    k = max(i for i, l in enumerate(lines) if re.match(r"-- (finished|fault|deadlock|limit|script)", l))
    before = "\n".join(lines[:k]) + ("\n" if k else "")
    report = lines[k]
    stands = []
    for l in lines[k + 1:]:
        m = re.match(r"process (\d+) .*: ([a-z ]+) at line (\d+)$", l)
        if m:
            stands.append('stands %s (codes "%s") %s' % m.groups())
    if report == "-- finished":
        ending = "Finished"
    elif report == "-- deadlock":
        ending = "Deadlock"
    elif m := re.match(r"-- limit of (\d+) actions", report):
        ending = "(Limit %s)" % m.group(1)
    elif m := re.match(r"-- fault (\d+): .* in process (\d+) .* at line (\d+)$", report):
        ending = "(Fault %s %s %s)" % (m.group(2), m.group(3), FAULTS[int(m.group(1)) - 1])
    elif m := re.match(r"-- script stopped at item (\d+): (.*)$", report):
        why = m.group(2)
        if m2 := re.match(r"process (\d+) is not ready", why):
            w = "(NotReady %s)" % m2.group(1)
        elif m2 := re.match(r"there is no process (\d+)", why):
            w = "(NoProcess %s)" % m2.group(1)
        elif why == "the script has ended":
            w = "Ended"
        else:
            return None
        ending = "(Script %s %s)" % (m.group(1), w)
    else:
        return None
    return before, ending, "(" + " ∷ ".join(stands + ["[]"]) + ")"


def sample(name, case, with_trace):
    words, files = case["words"], case["files"]
    value = lambda o, d: words[words.index(o) + 1] if o in words else d
    seed, limit = value("--seed", "1"), int(value("--limit", "1000000"))
    output = case["output"]
    if "--code" in words:
        output = re.sub(r"\A(?: *\d+ +\d+ [A-Z]+(?: -?\d+)*\n)+", "", output)
    got = expected(output)
    if got is None:
        return None
    if "--script" in words:
        items = files[value("--script", "")].split()
        if not all(re.fullmatch(r"\d+", i) for i in items):
            return None
        picking = "(by_list %s 0)" % numbers([int(i) for i in items])
    elif "--unfair" in words:
        picking = "(by_turn 0)"
    else:
        picking = "(by_words (stream %s 1))" % seed
    source = files[words[0]]
    data = files[value("--input", "")] if "--input" in words else ""
    trace = case.get("walk --trace", [0, ""])[1]
    traced = with_trace and trace and re.fullmatch(r"(\d+\n)+", trace)
    run = "(told_of %s %s %s %s %d)" % (text(source), text(data), seed, picking, limit)
    want = "tells %s %s %s %s" % (text(got[0]), got[1], got[2], numbers(trace.split()) if traced else "[]")
    return "%s : %s ≡ %s\nunfolding told_of\n%s = refl\n" % (name, run if traced else "untraced " + run, want, name)


def main(args):
    batch, actions = int(option(args, "--batch", 40)), int(option(args, "--actions", 100000000))
    most, first, every = int(option(args, "--bytes", 100000)), int(option(args, "--first", 10 ** 9)), int(option(args, "--every", 1))
    keep = option(args, "--keep", None)
    traced = "--trace" in args
    args = [a for a in args if a != "--trace"]
    if not args:
        sys.exit(__doc__)
    samples, cases, taken = [], {}, {}
    for group, k, case in cases_of(args[0], args[1:]):
        words = case["words"]
        limit = int(words[words.index("--limit") + 1]) if "--limit" in words else 1000000
        trace = case.get("walk --trace", [0, ""])[1].count("\n")
        if limit > actions or len(case["files"][words[0]]) > most or trace > actions or k % every or taken.get(group, 0) >= first:
            continue
        name = "case_%d" % len(samples)
        s = sample(name, case, traced)
        if s:
            samples.append(s)
            cases[name] = case["case"]
            taken[group] = taken.get(group, 0) + 1
    sys.exit(compute("pfc_samples", HEAD, samples, cases, batch, keep))


main(sys.argv[1:])
