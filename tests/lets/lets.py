#!/usr/bin/env python3
"""Makes the proofs of covered functions legible: `lets.py FILE...` rewrites them, `rt fmt` lays them out.

A clause of a Proof.antt gets the walk so far as `c`; `c .before .before .before .kind .ensures` is what the call of `kind` promised, three
statements back. Here `let the-kind = c .before .before .before .kind in` comes to the clause's top, and `the-kind .ensures` in its place.
Where a clause has no line past LONG columns it stays as it is. A file that does not open with a comment gets one: what is shown, what the
loop keeps, which laws are cited. Names, breaks and comments are all that changes.
"""
import re
import sys

LONG = 120
WIDTH = 160
FAR = 12
CHAIN = re.compile(r"(?<![\w\-′])c((?: \.before)+)((?: \.[\w·κ\-]+)?)")
# what a place has that is no statement's: it is named by the place
PLACE = {"", "args", "pre", "κs", "good", "ok"}


def pieces(text):
    """The text in pieces: a line at the margin begins one."""
    piece = []
    for line in text.split("\n"):
        if piece and line and not line[0].isspace():
            yield "\n".join(piece)
            piece = []
        piece.append(line)
    yield "\n".join(piece)


def parts(chain):
    """How far back a chain leads, and to what."""
    depth = chain.group(1).count(".before")
    field = chain.group(2).strip().lstrip(".")
    return depth, "start" if field in PLACE else field, field


def back(depth, lets):
    """The place so many statements back; a far one from places on the way, which get names too."""
    if depth <= FAR + 4:
        return "c" + " .before" * depth
    for step in range(1, depth // FAR + 1):
        origin = "c" if step == 1 else f"far-{step - 1}"
        let = f"let far-{step} = {origin}" + " .before" * FAR + " in"
        if let not in lets:
            lets.append(let)
    return f"far-{depth // FAR}" + " .before" * (depth % FAR)


def named(body):
    """The lets that a body needs, and the body with their names."""
    found = sorted({parts(chain)[:2] for chain in CHAIN.finditer(body)})
    names, lets, taken = {}, [], {}
    for depth, field in found:
        if depth < 2 or field == "before":
            continue
        taken[field] = taken.get(field, 0) + 1
        name = f"the-{field}".lower().replace("·", "-") + ("" if taken[field] == 1 else f"-{taken[field]}")
        value = back(depth, lets) + ("" if field == "start" else f" .{field}")
        lets.append(f"let {name} = {value} in")
        names[depth, field] = name

    def put(chain):
        depth, field, said = parts(chain)
        name = names.get((depth, field))
        if name is None:
            return chain.group(0)
        return f"{name} .{said}" if field == "start" and said else name

    return lets, CHAIN.sub(put, body)


def broken(line, indent):
    """A line in pieces of at most WIDTH columns, broken between the arguments that stand least deep."""
    out = []
    while len(line) > WIDTH:
        depth, best = 0, None
        for at, char in enumerate(line[: WIDTH + 1]):
            if char in "([{":
                depth += 1
            elif char in ")]}":
                depth -= 1
            elif char == " " and at > indent + 20:
                if line[at + 1] in ".=:→" or line[:at].endswith(("λ", "let", "=", "(", "{")):
                    continue
                if best is None or (depth, -at) < best:
                    best = (depth, -at)
        if best is None:
            break
        out.append(line[: -best[1]].rstrip())
        line = " " * indent + line[-best[1] + 1 :]
    return out + [line]


def leading_let(body):
    """Where the let that a body begins with ends, if it begins with one."""
    if not body.startswith("let "):
        return None
    depth, level = 0, 1
    for token in re.finditer(r"[()\[\]{}]|\blet\b|\bin\b", body[4:]):
        if token.group(0) in "([{":
            depth += 1
        elif token.group(0) in ")]}":
            depth -= 1
        elif depth == 0:
            level += 1 if token.group(0) == "let" else -1
            if level == 0:
                return 4 + token.end()
    return None


def legible(piece):
    """A clause with names for what lies on the way."""
    head = re.match(r"^([\w·′\-]+ c(?: [\w·κ′_]+)*) =\s", piece)
    if not head or "where" in piece or re.search(r"λ[^.]*\bc\b[^.]*\.", piece):
        return piece
    if max(map(len, piece.split("\n"))) <= LONG:
        return piece
    body = piece[head.end() :]
    tail = re.search(r"\s*$", body).group(0)
    lets, body = named(re.sub(r"\s+", " ", body.strip()))
    lines = ["    " + let for let in lets]
    while (end := leading_let(body)) is not None:
        lines += broken("    " + body[:end], 6)
        body = body[end:].strip()
    return f"{head.group(1)} =\n" + "\n".join(lines + broken("    " + body, 4)) + tail


def opening(name, text):
    """What is shown, and how: the first line of a proof that has none."""
    place = re.search(r"crates/([^/]+)/proofs/(.*)/Proof\.antt$", name)
    said = []
    kept = re.search(r"^Inv-[\w-]+ [^=]*= *((?:.|\n)*?)\n\n", text, re.M)
    if kept:
        rules = dict.fromkeys(re.findall(r"(?<![\w.·-])([A-Z][\w-]+)", kept.group(1)))
        what = " and ".join(f"`{rule}`" for rule in list(rules)[:3])
        said.append(f"the loop keeps {what or 'what has been done equal to its part of the whole'}")
    laws = {}
    for used in re.finditer(r"^use (Rattle·[\w·.]*proofs[\w.·]*)\.\{([^}]*)\}", text, re.M):
        if not used.group(1).endswith((".Statement", ".Tie", ".Reads", ".Lts")):
            names = (one.split(" as ")[0].strip() for one in used.group(2).split(","))
            laws.update((law, None) for law in names if "-" in law and law[0].islower())
    if laws:
        cited = ", ".join(f"`{law}`" for law in list(laws)[:6])
        said.append(f"by {cited}{' and others' if len(laws) > 6 else ''}")
    if not said:
        said.append("from what its calls promise" if ".ensures" in text else "each need follows from its own premises")
    function = f"{place.group(1)}::{place.group(2).replace('+', '').replace('/', '::')}"
    return f"-- `{function}` meets its contract: {'; '.join(said)}."


def main(files):
    for name in files:
        with open(name, encoding="utf-8") as file:
            text = file.read()
        new = "\n".join(map(legible, pieces(text)))
        if not new.startswith("--"):
            new = opening(name, text) + "\n" + new
        if new != text:
            with open(name, "w", encoding="utf-8") as file:
                file.write(new)


if __name__ == "__main__":
    main(sys.argv[1:])
