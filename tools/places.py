"""Lists the places of a repository's source that a design pass looks at: usage: places.py POINT.. [ROOT]
POINT is a number from 1 to 8 (docs/DESIGN-PASS.md says what each is), ROOT a checkout (the current folder where none is
named). It goes by text, so it lists candidates: the page says of each whether it is changed or kept."""

import collections
import pathlib
import re
import sys

# What is looked for line by line.
LINES = {
    1: {
        "own enum": r"^\s*(pub(\(\w+\))? )?enum \w+",
        "number of a refusal or a kind": r"fn \w+\([^)]*\) -> u8\b|\bself as u8|refusal as u8",
        "number that stands for none": r"unwrap_or\(0\)|None => 0\b|\b(line|item): 0\b|// from 1.*\b0\b|\bNO_[A-Z]+: u32|MAX_CYCLES \+ 1",
    },
    3: {
        "loop": r"^\s*(for .* in|while|loop)\b",
    },
    4: {
        "impl that a derive, From or Display can give": r"^impl(<.*>)? (Clone|Copy|PartialEq|Eq|PartialOrd|Ord|Default|From<.*>|fmt::Display) for",
        "cast": r"\bas (u8|u16|u32|u64|usize)\b",
        "equality, order, copy, conversion or printing in a function of its own": r"fn (same|contains|is_dash|at_most|rewrite|copy_from|name|word|parts|found|print_\w+|show_\w+|digit|call_answer|plan_answer|steps_answer|event_answer)\b",
    },
    6: {
        "array with a length beside it": r"\[[^\[\];]+; (\w+)\](?! = \[)",
        "list searched by hand": r"fn (find|rank|step_of|section_stands|contains|\w+_column)\b",
    },
    7: {
        "trait": r"^\s*pub trait|^trait",
        "impl of a trait that stands for a closure": r"^impl (Choice|Change)<",
        "match that picks a step": r"=> \w+(\.\w+)*\((.*)\),$",
        "dyn, pointer or closure": r"\bdyn \w|\bfn\(|\bFn(Mut|Once)?\(",
    },
}

PARAMETER = re.compile(r"(\w+): ([^,()]+(?:\([^)]*\))?)")


def sources(root):
    """Each source file with its lines."""
    for path in sorted(root.glob("crates/*/src/**/*.rt")):
        yield path.relative_to(root), path.read_text().split("\n")


def functions(lines):
    """Each function: the line where it begins, its head with its clauses, and its body."""
    i = 0
    while i < len(lines):
        if not re.match(r"\s*(pub(\(\w+\))? )?fn \w+", lines[i]):
            i += 1
            continue
        indent = re.match(r"\s*", lines[i]).group()
        stop = next((j for j in range(i, len(lines)) if lines[j] in (indent + "}", indent + "};") or (j == i and lines[j].endswith("}")) or (lines[j].endswith(";") and not lines[j].startswith(indent + "    "))), i)
        text = "\n".join(lines[i : stop + 1])
        cut = re.search(r"^" + indent + r"\{$", text, re.M)
        head = text[: cut.start()] if cut else text.split("{")[0]
        body = text[len(head) :]
        yield i + 1, head, body
        i = stop + 1


def shape(body):
    """A body with its names, numbers and texts blanked."""
    body = re.sub(r'"[^"]*"', "TEXT", body)
    body = re.sub(r"\b\d[\d_]*\w*\b", "N", body)
    keep = {"if", "else", "for", "in", "while", "loop", "match", "let", "mut", "return", "break", "as"}
    return re.sub(r"\b[A-Za-z_]\w*\b", lambda m: m.group() if m.group() in keep else "x", re.sub(r"\s+", " ", body))


def by_line(point, root):
    found = []
    for kind, pattern in LINES[point].items():
        for path, lines in sources(root):
            for n, line in enumerate(lines, 1):
                if not line.strip().startswith(("//", "ghost")) or "// from 1" in line:
                    if re.search(pattern, line):
                        found.append((kind, f"{path}:{n}", line.strip()))
    return found


def twins(root):
    """Functions whose bodies are the same but for names and numbers, and types with the same fields."""
    shapes = collections.defaultdict(list)
    for path, lines in sources(root):
        for n, head, body in functions(lines):
            if body.count("\n") >= 2:
                shapes[shape(body)].append((f"{path}:{n}", head.strip().split("\n")[0]))
    consts = collections.defaultdict(list)
    for path, lines in sources(root):
        for n, line in enumerate(lines, 1):
            if re.match(r"(pub(\(\w+\))? )?(const|enum|struct) \w+", line):
                stop = next((j for j in range(n - 1, len(lines)) if lines[j] in ("};", "}", "];") or lines[j].endswith(";")), n)
                text = re.sub(r"^.*?[{=]", "", " ".join(lines[n - 1 : stop + 1]))
                if len(text) > 12:
                    consts[re.sub(r"\s+", " ", text)].append((f"{path}:{n}", line))
    found = []
    for kind, groups in (("bodies alike", shapes), ("types or constants alike", consts)):
        for members in groups.values():
            if len(members) > 1:
                found += [(f"{kind}, {len(members)}", place, text) for place, text in members]
    return found


def repeated(root):
    """Clauses that stand in three functions or more of a crate, and pairs of parameters that do."""
    clauses, pairs = collections.defaultdict(list), collections.defaultdict(list)
    for path, lines in sources(root):
        crate = path.parts[1]
        for n, head, body in functions(lines):
            for clause in re.findall(r"(?:requires|ensures)(?: \w+)? \{ (.*) \}", head):
                clauses[crate, clause].append(f"{path}:{n}")
            name = re.search(r"fn \w+(?:<[^(]*>)?\((.*?)\)(?: ->|$| *\n)", head, re.S)
            names = sorted(set(PARAMETER.findall(name.group(1)))) if name else []
            for a in range(len(names)):
                for b in range(a + 1, len(names)):
                    pairs[crate, names[a], names[b]].append(f"{path}:{n}")
    found = []
    for (crate, clause), places in clauses.items():
        if len(places) > 2:
            found += [(f"clause in {len(places)} contracts", place, clause) for place in places]
    for (crate, a, b), places in pairs.items():
        if len(places) > 2:
            found += [(f"parameters together {len(places)} times", place, f"{a[0]}: {a[1].strip()}, {b[0]}: {b[1].strip()}") for place in places]
    return found


def proofs(root):
    """Proof files, each with its count of lines."""
    return [("proof file", str(p.relative_to(root)), f"{len(p.read_text().splitlines())} lines") for p in sorted(root.glob("crates/*/proofs/**/*.antt"))]


def places(point, root):
    if point == 2:
        return twins(root)
    if point == 5:
        return repeated(root)
    if point == 8:
        return proofs(root)
    return by_line(point, root)


def main():
    points = [int(a) for a in sys.argv[1:] if a.isdigit()]
    rest = [a for a in sys.argv[1:] if not a.isdigit()]
    root = pathlib.Path(rest[0] if rest else ".")
    for point in points:
        found = places(point, root)
        for kind, place, text in found:
            print(f"{point} {place}: [{kind}] {text}")
        counts = collections.Counter(re.sub(r",? \d+.*", "", kind) for kind, _, _ in found)
        print(f"point {point}: {len(found)} places; " + "; ".join(f"{kind} {n}" for kind, n in counts.items()))


main()
