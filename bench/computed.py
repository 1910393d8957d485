"""Cases that are computed by definitions: each becomes a sample, so many in a file of proofs, in a copy of the repository, and
`rt check` computes them. What it cannot compute in its number of steps is counted apart.
"""
import json, os, re, shutil, subprocess, sys, tempfile

root = os.path.dirname(os.path.dirname(os.path.abspath(__file__)))


def text(data):
    """The bytes as a list: pieces of printable text, and the others by their numbers."""
    pieces = []
    for m in re.finditer(r"[ !#-\[\]-~\n]+|[^ !#-\[\]-~\n]+", data, re.S):
        s = m.group(0)
        if re.match(r"[ !#-\[\]-~\n]", s):
            pieces.append('codes "%s"' % s.replace("\n", "\\n"))
        else:
            pieces.append("(" + " ∷ ".join([str(ord(c)) for c in s] + ["[]"]) + ")")
    return "(" + " ++ ".join(pieces) + ")" if pieces else "[]"


def numbers(items):
    return "(" + " ∷ ".join([str(n) for n in items] + ["[]"]) + ")"


def option(args, name, default):
    if name in args:
        k = args.index(name)
        v = args[k + 1]
        del args[k:k + 2]
        return v
    return default


def cases_of(folder, groups):
    """The cases of each group, with their places in it from 0."""
    for g in groups or sorted(f[:-6] for f in os.listdir(folder) if f.endswith(".jsonl")):
        for k, line in enumerate(open(os.path.join(folder, g + ".jsonl"))):
            yield g, k, json.loads(line)


def compute(crate, head, samples, cases, batch, keep):
    """Computes samples in the place of the crate's proofs, and says which differ; `cases` has the case of each sample's name."""
    work = keep or tempfile.mkdtemp()
    lab = os.path.join(work, "copy")
    if not os.path.isdir(lab):
        shutil.copytree(root, lab, ignore=shutil.ignore_patterns(".git"))
    folder = os.path.join(lab, "crates", crate)
    proofs = os.path.join(folder, "proofs")
    agree, wrong, long = 0, [], []
    for start in range(0, len(samples), batch):
        part = samples[start:start + batch]
        for f in os.listdir(proofs):
            p = os.path.join(proofs, f)
            shutil.rmtree(p) if os.path.isdir(p) else os.remove(p)
        open(os.path.join(proofs, "Lib.antt"), "w").write("pub mod Cases\n")
        open(os.path.join(proofs, "Cases.antt"), "w").write(head + "\n" + "\n".join(part))
        p = subprocess.run(["rt", "check", "--jobs", "1"], cwd=folder, capture_output=True, text=True)
        out = p.stdout + p.stderr
        lines = open(os.path.join(proofs, "Cases.antt")).read().split("\n")
        bad = {}
        for m in re.finditer(r"proofs/Cases\.antt:(\d+):\d+: error: (.*)", out):
            k = int(m.group(1)) - 1
            while k > 0 and not re.match(r"case_\d+ :", lines[k]):
                k -= 1
            bad.setdefault(lines[k].split(" ")[0], m.group(2))
        if p.returncode and not bad:
            sys.exit(out[-3000:])
        for s in part:
            name = s.split(" ")[0]
            if name not in bad:
                agree += 1
            elif "steps" in bad[name] or "memory" in bad[name]:
                long.append(cases[name])
            else:
                wrong.append(cases[name])
                print("differs: %s: %s" % (cases[name], bad[name][:300]), flush=True)
        print("%d agree, %d differ, %d too long, of %d" % (agree, len(wrong), len(long), min(start + batch, len(samples))), flush=True)
    if long:
        print("too long: " + ", ".join(long))
    if not keep:
        shutil.rmtree(work)
    return 1 if wrong else 0
