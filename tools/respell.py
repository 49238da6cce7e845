#!/usr/bin/env python3
"""Spells the definitions and lemmas of this repository as the Rattle library spells its own: in snake case.

usage: tools/respell.py [FOLDER]      at the top of the repository, or of FOLDER; run once, after the kit's port.py

Each name that a file of crates/*/specs or a file of lemmas of crates/*/proofs declares, and that begins with a small letter and
has a capital or a dash in it, gets plain underscores: codeLength is code_length, run-answers is run_answers. So do its uses, in
.antt and .rt files, in must-fail edits and in the pages. Types, modules, constructors, functions of src/ and the names that Rattle
makes keep their spelling. A lemma that would have its definition's name gets _lem. It stops, and writes nothing, where two names
would fall together.
"""

import collections
import os
import re
import sys

WORD = r"""[^\s(){}.;,@"«»`\[\]]+"""
HEAD = r"(?:(?:pub|abbrev|unfoldable|record|data|ruleset)\s+)*"
DECLARED = re.compile(rf"(?m)^ *{HEAD}({WORD}(?: {WORD})*?)(?: \{{[^{{}}\n]*\}})* :(?= |$)")
# in the folder of a function's proof stand the names that Rattle makes
OF_A_FUNCTION = re.compile(r"/proofs/.*/(Proof|Answers|Invariants)\.antt$")
COMMENT = re.compile(r"(?m)(?:--|//).*$")
# in a comment a word with a dash may be an English one: it is a name where it stands in code marks or opens a line of an inventory
MARKED = re.compile(r"`[^`\n]*`")
ROW = re.compile(rf"^(--   )((?:{WORD}(?:, )?)+)(  +(?=\S)|$)")

# lemmas to which port.py gave the spelling that a definition of ours has now
FIRST = {
    "crates/rules/proofs/Bytes/WrittenCode.antt": {"target_fits": "target_fits_lem"},
    "crates/rules/proofs/Step/Effects.antt": {"with_nothing": "with_nothing_lem"},
}

# names of ours to which port.py gave this spelling already, in the code: pages and edits follow it here
PORTED = """
    add-left add-right add-spec allBelow answerOf asks-nothing below-by below-more below-one below-two bit-found bits-small
    both-below by-flag by-form by-itself by-state by-tests byteAt bytes-small bytesOf clear-spec code-fits codeIn codeOf
    columnSum count-spec counted-none digits-decimal each-append each-row each-step first-below fits-after fits-last
    found-front freshOf goes-on half-spec itemAt itemsOf kindAt left-below less-one line-refused map-same more-of nextOf
    no-kind no-operand nodeOf not-saved one-at-most one-below one-number oneAt only-below operandAt pop-spec push-spec
    put-spec read-back read-below read-spec rowAt rows-none run-along run-fits run-holds run-inside run-small run-spec
    same-end same-length same-next sets-below small-by stateOf step-cut step-spec stepOf stepped-within sum-fits sum-ones
    sum-same target-fits targetOf then-next times-above too-short turnOf two-operands unused-spec walk-begins walk-ends
    with-nothing withNumber wordAt wordBytes wrong-size wrong-target
""".split()


def files(top):
    for folder, dirs, names in os.walk(os.path.join(top, "crates")):
        dirs[:] = sorted(d for d in dirs if d != "out")
        for name in sorted(names):
            if name.endswith((".antt", ".rt", ".edit")):
                yield os.path.join(folder, name)
    for page in ["README.md"] + sorted("docs/" + f for f in os.listdir(os.path.join(top, "docs"))):
        if page.endswith(".md") and not page.endswith("PORT.md"):
            yield os.path.join(top, page)


def read(path):
    with open(path, encoding="utf-8") as f:
        return f.read()


def snake(name):
    words = re.sub(r"(?<=[a-z0-9])[A-Z]", lambda m: "_" + m[0].lower(), name)
    return words.replace("-", "_")


def own(top):
    """The names that are to be respelled, each with its new spelling."""
    found = set()
    for path in files(top):
        if path.endswith(".antt") and not OF_A_FUNCTION.search(path):
            for names in DECLARED.findall(COMMENT.sub("", read(path))):
                found.update(names.split())
    turning = {n for n in found if re.fullmatch(r"[a-z][\w'-]*", n) and re.search("[A-Z-]", n)}
    taken = (found - turning) | {snake(n) for n in turning if "-" not in n}
    return {n: snake(n) + "_lem" if "-" in n and snake(n) in taken else snake(n) for n in turning}


def turn(text, table):
    def word(m):
        bare = m[0].rstrip("'")
        return table[bare] + m[0][len(bare) :] if bare in table else m[0]

    return re.sub(WORD, word, text)


def comment(text, table):
    def row(m):
        # what a name means stays in its column
        names = turn(m[2], table)
        gap = max(3, len(m[2]) + len(m[3]) - len(names)) if m[3] else 0
        return m[1] + names + " " * gap

    camel = {n: s for n, s in table.items() if "-" not in n}
    text = ROW.sub(row, text) if ROW.search(text) else text
    return MARKED.sub(lambda m: turn(m[0], table), turn(text, camel))


def turned(path, text, table):
    if not path.endswith((".antt", ".rt")):
        table = {**{n: snake(n) for n in PORTED}, **table}
    if path.endswith(".md"):
        return re.sub(r"`[^`\n]*`|(?m:^    .*$)", lambda m: turn(m[0], table), text)
    out, at = [], 0
    for m in COMMENT.finditer(text):
        out.append(turn(text[at : m.start()], table))
        out.append(comment(m[0], table))
        at = m.end()
    out.append(turn(text[at:], table))
    return "".join(out)


def main():
    top = sys.argv[1] if len(sys.argv) > 1 else "."
    table = own(top)
    first = {os.path.join(top, path): names for path, names in FIRST.items()}
    every = collections.Counter(table.values())
    clashes = [n for n, s in table.items() if every[s] > 1]
    result = {}
    for path in files(top):
        old = read(path)
        text = turn(old, first.get(path, {}))
        # a page, the code of a function and the names that Rattle makes of it share no name with the definitions
        apart = not path.endswith(".antt") or OF_A_FUNCTION.search(path)
        words = set() if apart else set(re.findall(WORD, COMMENT.sub("", text)))
        clashes += [f"{n} in {path}" for n in words & set(table) if table[n] in words]
        new = turned(path, text, table)
        if new != old:
            result[path] = new
    if clashes:
        sys.exit("these would fall together with another name: " + "; ".join(sorted(clashes)))
    for path, text in result.items():
        with open(path, "w", encoding="utf-8") as f:
            f.write(text)
    print(f"{len(table)} names, {len(result)} files")


if __name__ == "__main__":
    main()
