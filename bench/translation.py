#!/usr/bin/env python3
"""Computes code texts by the definitions of the image, and counts where they agree with the expected bytes.

    bench/translation.py CASES [GROUP ..] [--batch N] [--bytes N] [--first N] [--every N] [--keep FOLDER]

CASES is a folder of files GROUP.jsonl, as for bench/meaning.py. Those cases count whose words have --code: their output begins
with the code text. Of cases with one text the first is taken. Texts above --bytes are left out, with --every N all but each
N-th, and --first N takes so many of a group.
"""
import re, sys

from computed import cases_of, compute, option, text

HEAD = """-- Samples made by a script.
use Rattle.std.specs.Prelude.{◌≡◌, [], ◌∷◌, ◌++◌, Some, codes, refl}
use Rattle.pfc_translation_samples.specs.Shows.{code_of}
"""
CODE = re.compile(r"\A(?: *\d+ +\d+ [A-Z]+(?: -?\d+)*\n)+")


def main(args):
    batch, most = int(option(args, "--batch", 40)), int(option(args, "--bytes", 100000))
    first, every = int(option(args, "--first", 10 ** 9)), int(option(args, "--every", 1))
    keep = option(args, "--keep", None)
    if not args:
        sys.exit(__doc__)
    samples, cases, seen, taken, met = [], {}, set(), {}, 0
    for group, k, case in cases_of(args[0], args[1:]):
        words = case["words"]
        source = case["files"].get(words[0], "")
        code = CODE.match(case["output"]) if "--code" in words else None
        if not code or source in seen or len(source) > most:
            continue
        seen.add(source)
        met += 1
        if met % every or taken.get(group, 0) >= first:
            continue
        name = "case_%d" % len(samples)
        samples.append("%s : code_of %s ≡ Some %s\nunfolding code_of\n%s = refl\n" % (name, text(source), text(code.group(0)), name))
        cases[name] = case["case"]
        taken[group] = taken.get(group, 0) + 1
    sys.exit(compute("pfc_translation_samples", HEAD, samples, cases, batch, keep))


main(sys.argv[1:])
