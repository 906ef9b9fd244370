#!/usr/bin/env python3
"""Leads the clauses of proofs to what they name after a statement was added or taken away: `ways.py CRATE [FUNCTION...]`.

`rt goals CRATE` comes first, over the changed code. A clause that says `c .before .before .kind` then gets as many `.before` as lead to
`kind` now. What a clause names and the walk does not have is told, with the names that it has; so are needs that have no clause, and clauses
that answer no need. Nothing but the number of `.before` changes. A clause in which a λ binds another `c` stays as it is.
"""
import glob
import re
import sys

from lets import FAR, pieces

HEAD = re.compile(r"^([\w·′\-]+) c(?: [\w·κ′_]+)* =\s")
CHAIN = re.compile(r"(?<![\w\-′])(c|far-\d+)((?: \.before)*)((?: \.[\w·κ\-]+)?)")
FAR_LET = re.compile(r"\n *let far-\d+ = [^\n]* in(?=\n)")


def walks(text):
    """The fields of each place of a walk, and the place at which each need is asked."""
    places, now = {}, None
    for line in text.split("\n"):
        begun = re.match(r"( *)(?:abbrev )?pub record (\S+)", line)
        field = re.match(r"( *)pub (\S+) :\s*(\S*)", line)
        if begun:
            now = len(begun.group(1)) + 2, places.setdefault(begun.group(2), {})
        elif not line.strip():
            now = None
        elif field and now and len(field.group(1)) == now[0]:
            now[1][field.group(2)] = field.group(3)
    return places, dict(re.findall(r"^\s+Need-(\S+) =\s*\(c : (\S+)\)", text, re.M))


def way(places, place):
    """What lies on the way back from a place: the names at each step, the function's beginning last."""
    steps = []
    while place in places:
        steps.append([name for name in places[place] if name != "before"])
        place = places[place].get("before")
    return steps


def mended(clause, steps, told):
    """A clause with its chains as long as they have to be."""
    farthest = 0

    def put(chain):
        nonlocal farthest
        origin, back, field = chain.group(1), chain.group(2).count(".before"), chain.group(3)
        old = back + (FAR * int(origin[4:]) if origin != "c" else 0)
        name = field.strip().lstrip(".")
        if not field or name == "before":
            at = len(steps) - 1 if old and not field else old
        else:
            found = [step for step, names in enumerate(steps) if name in names]
            if not found:
                told.append(f"no `{name}` on the way: {' '.join(names[0] for names in steps[:-1])}")
                return chain.group(0)
            at = found[0]
        if at <= FAR + 4:
            return "c" + " .before" * at + field
        farthest = max(farthest, at // FAR)
        return f"far-{at // FAR}" + " .before" * (at % FAR) + field

    head, body = clause.split("=", 1)
    plain = FAR_LET.sub("", body)
    body = CHAIN.sub(put, plain)
    if body == plain:
        return clause
    lets = [f"let far-{k} = {'c' if k == 1 else f'far-{k - 1}'}" + " .before" * FAR + " in" for k in range(1, farthest + 1)]
    return head + "=" + "".join("\n    " + let for let in lets) + body


def main(crate, functions):
    goals = f"target/goals/{crate}/Rattle·{crate}·proofs/proofs/"
    for walk in sorted(glob.glob(goals + "**/Lts.antt", recursive=True)):
        function = walk[len(goals) : -len("/Lts.antt")]
        name = f"crates/{crate}/proofs/{function}/Proof.antt"
        if not glob.glob(glob.escape(name)) or functions and function not in functions:
            continue
        with open(walk, encoding="utf-8") as file:
            places, needs = walks(file.read())
        with open(name, encoding="utf-8") as file:
            text = file.read()
        answered, out = set(), []
        for piece in pieces(text):
            head = HEAD.match(piece)
            if head and head.group(1) in needs and not re.search(r"λ[^.]*\bc\b[^.]*\.", piece):
                told = []
                piece = mended(piece, way(places, needs[head.group(1)]), told)
                for what in told:
                    print(f"{name}: `{head.group(1)}`: {what}")
            answered.update(re.findall(r"^([\w·′\-]+) : tie\.Need-", piece, re.M))
            out.append(piece)
        for need in [need for need in needs if need not in answered]:
            print(f"{name}: no clause for `{need}`")
        for need in sorted(answered - set(needs)):
            print(f"{name}: `{need}` is no need")
        if (new := "\n".join(out)) != text:
            print(f"{name}: mended")
            with open(name, "w", encoding="utf-8") as file:
                file.write(new)


if __name__ == "__main__":
    main(sys.argv[1], sys.argv[2:])
