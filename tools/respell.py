"""Brings the names of the repository's own definitions, fields and lemmas to snake case: usage: respell.py, once, at the top.

A name is renamed where it is defined with a dash (a definition, a lemma, a field, a parameter or a local name of an .antt file),
unless Rattle makes it: a goal is answered under the goal's name. In .rt files only ghost items and clauses are touched.
It says which new names stood in the repository before.
"""

import pathlib
import re
import sys

NAME = r"[^\s(){}.,;:«»\"@\\]+"
TOKEN = re.compile(r"[A-Za-z_][A-Za-z0-9_'-]*")
HEAD = re.compile(r"^\s*(?:(?:pub|abbrev|unfoldable|let|in)\s+)*(" + NAME + r")\s*:(?=\s)")
BINDER = re.compile(r"[({]((?:[A-Za-z_][A-Za-z0-9_'-]*\s+)*[A-Za-z_][A-Za-z0-9_'-]*)\s*:(?=\s)")
ALIAS = re.compile(r"\bas ([A-Za-z_][A-Za-z0-9_'-]*)(?=[,}])")
LET = re.compile(r"\blet\s+([A-Za-z_][A-Za-z0-9_'-]*)\s*[:=]|^\s+([A-Za-z_][A-Za-z0-9_'-]*)\s*=(?=\s)", re.M)


def own_names(text):
    names = set()
    for line in text.split("\n"):
        code = line.split("--")[0]
        head = HEAD.match(code)
        if head and not re.search(r":\s*(goal|rule|need)\.", code):
            names.add(head[1])
        for group in BINDER.findall(code):
            names.update(group.split())
    for groups in LET.findall(text):
        names.update(g for g in groups if g)
    return {n for n in names if "-" in n and TOKEN.fullmatch(n)}


def generated(text):
    return set(re.findall(r"^(?:pub\s+)?(" + NAME + r")\s*:\s*(?:goal|rule|need)\.", text, re.M)) | set(re.findall(r"(?:goal|rule|need)\.(" + NAME + ")", text))


def renamed(text, names):
    return TOKEN.sub(lambda m: m[0].replace("-", "_") if m[0] in names else m[0], text)


def ghost_lines(text, names):
    """Only lines of ghost items and of clauses, up to the brace that ends them."""
    out, depth = [], 0
    for line in text.split("\n"):
        opens = re.match(r"\s*(?:pub\s+)?(?:ghost\b|ensures\b|requires\b|decreases\b)", line)
        if (opens or depth > 0) and not line.lstrip().startswith("//"):
            out.append(renamed(line, names))
            depth = max(0, depth + line.count("{") - line.count("}"))
        else:
            out.append(line)
    return "\n".join(out)


def brought_in_as(text, name):
    """A definition that would be spelled as a function of the file is brought in under another name."""
    other = name.replace("-", "_") + "_of"
    text = TOKEN.sub(lambda m: other if m[0] == name else m[0], text)
    return re.sub(r"(^ghost use [^;]*[{, ])" + other, r"\g<1>" + name.replace("-", "_") + " as " + other, text, count=1, flags=re.M)


def main():
    files = sorted(p for p in pathlib.Path("crates").rglob("*") if p.suffix in (".antt", ".rt") and "out" not in p.parts)
    texts = {p: p.read_text() for p in files}
    names, made = set(), set()
    for p, text in texts.items():
        if p.suffix == ".antt":
            names |= own_names(text)
            made |= generated(text)
        else:
            names |= {n for n in ALIAS.findall(text) if "-" in n}
    names -= made
    for p, text in texts.items():
        before = set(TOKEN.findall(text))
        for n in sorted(names & before):
            if n.replace("-", "_") in before:
                print(f"{p}: {n} falls together with {n.replace('-', '_')}")
                if p.suffix == ".rt":
                    text = brought_in_as(text, n)
        new = renamed(text, names) if p.suffix == ".antt" else ghost_lines(text, names)
        if new != text:
            p.write_text(new)
    print(f"{len(names)} names", file=sys.stderr)
    print(" ".join(sorted(names)), file=sys.stderr)


main()
