#!/usr/bin/env python3
"""Lists the edits that must be refused, and that could be refused for their shape.

    bench/edit-shapes.py

An edit is refused for its contract where it changes a constant, an operand, a comparison or a sign alone, or where its function has
no file of its own among the proofs, so that the same tactics are tried on any body. Of every other edit a right body of the same
new shape has to pass; where one did, the edit says it in a line `# right: BODY`. So it is where the condition of an `if` or a pattern
changes after which the answers of its function name a goal: `then-count-eq0` is no goal any more where the test is `!= 0`. The status
is 1 where an edit is left over.
"""
import glob, os, re, sys

TOKEN = re.compile(r"b?'(?:\\.|[^'\\])'|b?\"(?:\\.|[^\"\\])*\"|\w+|<=|>=|==|!=|&&|\|\||->|=>|::|\.\.=|\.\.|\S")
TESTS = {"<=": "le", ">=": "ge", "==": "eq", "!=": "ne", "<": "lt", ">": "gt"}
COMPARISONS, SIGNS, CONNECTIVES = ("<", ">", "<=", ">=", "==", "!="), ("+", "-", "*", "/", "%"), ("&&", "||")
FUNCTION = re.compile(r"^( *)(?:pub(?:\([a-z]+\))? )?(?:const )?fn (\w+)|^impl(?:<[^>]*>)? (?:(\w+)(?:<[^>]*>)? for )?(\w+)", re.M)


def kind(token):
    """What a token may be changed into: another of its kind."""
    for number, kinds in enumerate((COMPARISONS, SIGNS, CONNECTIVES)):
        if token in kinds:
            return number
    return "word" if re.match(r"\w|'|\"", token) else token


def shape(text):
    """Its tokens by their kinds, where an operand is one token: a path, a cast, `Some` of one, a field with its value."""
    for operand in (r"\b\w+(?:\.\w+)+\b(?!\()", r"\b\w+ as \w+", r"\bSome\(\w+\)", r"\b\w+: \w+"):
        text = re.sub(operand, "operand", text)
    return [kind(it) for it in TOKEN.findall(text)]


def changes(edit):
    """The file and the text before and after of each change of an edit."""
    file = old = ""
    for line in open(edit, encoding="utf-8"):
        line = line.rstrip("\n")
        if line.startswith("file: "):
            file = line[6:].strip()
        elif line.startswith("old: "):
            old = line[5:]
        elif line.startswith("new:"):
            yield file, old, line[5:]


def function_of(crate, file, text):
    """The function in which a text stands, as the folder of its proofs is named; nothing outside of functions."""
    source = open(f"crates/{crate}/{file}", encoding="utf-8").read()
    function = of = ""
    for found in FUNCTION.finditer(source[:max(source.find(text), 0)]):
        if found[2]:
            function = (of + "/" if found[1] else "") + found[2]
        else:
            of = found[4] + (found[3] or "")
    return function


def has_proof_file(crate, file, text):
    """Whether the function in which a text stands has answers or invariants of its own, or is in a cycle of calls that has."""
    function = function_of(crate, file, text)
    if not function:
        return False
    source = open(f"crates/{crate}/{file}", encoding="utf-8").read()
    proofs = f"crates/{crate}/proofs/{file[len('src/'):-len('.rt')]}"
    name = function.split("/")[-1]
    cycle = re.search(r"#\[cycle\((\w+)\)\](?:\s*#\[[^\n]*\])*\s*(?:pub(?:\([a-z]+\))? )?fn " + name + r"\b", source)
    folders = [function] + (["+" + cycle[1]] if cycle else [])
    return any(os.path.exists(f"{proofs}/{it}/{proof}.antt") for it in folders for proof in ("Answers", "Invariants"))


def renames(crate, file, old, new):
    """Whether the answers of the function name goals after the test or the pattern that the edit changes."""
    function = function_of(crate, file, old)
    path = f"crates/{crate}/proofs/{file[len('src/'):-len('.rt')]}/{function}/Answers.antt"
    if not function or not os.path.exists(path):
        return False
    answers = open(path, encoding="utf-8").read()
    words = lambda text: set(re.findall(r"\b[A-Z]\w+", text)) if re.search(r"\bif let\b|=>", text) else set()
    if any(f"in-{it}" in answers for it in words(old) - words(new)):
        return True
    tests = lambda text: {TESTS[sign] + number for sign, number in re.findall(r"(<=|>=|==|!=|<|>) ?(\d*)", text)} if re.search(r"\bif\b", text) else set()
    return any(re.search(rf"(if|then|else)-[\w-]*{it}\b", answers) for it in tests(old) - tests(new))


def main():
    os.chdir(os.path.dirname(os.path.dirname(os.path.abspath(__file__))))
    count = left = 0
    for edit in sorted(glob.glob("crates/*/must-fail/*.edit")):
        count += 1
        crate = edit.split("/")[1]
        if "\n# right: " in open(edit, encoding="utf-8").read():
            continue
        for file, old, new in changes(edit):
            if shape(old) != shape(new) and has_proof_file(crate, file, old) or renames(crate, file, old, new):
                left += 1
                print(f"{edit}\n    {old.strip()}\n    {new.strip()}")
    print(f"{count} edits, {left} of which a right body has to pass")
    sys.exit(1 if left else 0)


main()
