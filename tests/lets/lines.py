#!/usr/bin/env python3
"""Makes lines of proofs short: `lines.py FILE...` rewrites those past LONG columns, `rt fmt` lays them out.

A line breaks between the parts that stand least deep, after an operator rather than before an argument. Long pairs that are nested to the
right lose their parentheses: (a, (b, tt)) is a ∥ b ∥ tt. In the walk of a function's MIR the lifetimes and shares of what is lent get names,
and the first lines say which locals are which. Breaks, names and comments are all that changes.
"""
import re
import subprocess
import sys

LONG = 200
WIDTH = 160
AFTER = ("$", "→", "∵", "∷", "×", ",", "⊛", ";", "∙", "∥", "&&", "in", "where", "↦")
NEVER_AFTER = ("let", "=", "‵", "!", "pub", "abbrev", "module", "record")
NEVER_BEFORE = ("=", ":", "→", "$", "!", "∷", "×", "⊛", "∙", "∥", "&&")
OPEN, CLOSE = "([{", ")]}"


def inside_tuples(line):
    """The places inside a tuple: a break there makes the formatter give each part a line."""
    stack, inside = [], set()
    for at, char in enumerate(line):
        if char in OPEN:
            stack.append([at, False])
        elif char == "," and stack:
            stack[-1][1] = True
        elif char in CLOSE and stack:
            start, has_parts = stack.pop()
            if has_parts and char == ")":
                inside.update(range(start, at))
    for start, has_parts in stack:
        if has_parts:
            inside.update(range(start, len(line)))
    return inside


def may_break(head, tail):
    """Whether a line may end with head and go on with tail."""
    last = head.rsplit(" ", 1)[-1]
    if tail.startswith(NEVER_BEFORE) or (tail[:1] == "." and tail[1:2] != " "):
        return False
    return not (last in NEVER_AFTER or last.endswith(("λ", "(", "{")))


def cost(head, tail):
    """What a break costs beside its depth."""
    last = head.rsplit(" ", 1)[-1]
    if last == "∥":
        return -1
    if not last.startswith("λ") and (last in AFTER or last.endswith(",")):
        return 0
    return 1 if last.startswith("λ") or tail[:1] == "(" else 2


def best_break(line, indent, barred):
    """Where a line breaks best; None where it cannot."""
    stack, depth, best = [], 0, None
    for at, char in enumerate(line[: WIDTH + 1]):
        if char in OPEN:
            # what is nested to the right, a tuple's rest or a λ, counts as no deeper
            light = line[:at].endswith((", ", "→ ", "× ")) or line[at + 1 : at + 2] == "λ"
            stack.append(0 if light else 1)
            depth += stack[-1]
        elif char in CLOSE:
            depth -= stack.pop() if stack else 1
        elif char == " " and at > indent + 30 and at not in barred and may_break(line[:at], line[at + 1 :]):
            early = 0 if at > WIDTH * 0.4 else 1
            score = (2 * depth + cost(line[:at], line[at + 1 :]) + early, -at)
            if best is None or score < best:
                best = score
    return None if best is None else -best[1]


def broken(line, tuples):
    """A line in pieces; with tuples, inside of them too."""
    indent = len(line) - len(line.lstrip()) + 4
    out = []
    while len(line) > WIDTH:
        at = best_break(line, indent, set() if tuples else inside_tuples(line))
        if at is None:
            break
        out.append(line[:at].rstrip())
        line = " " * indent + line[at + 1 :]
    return out + [line]


def filled(start, words, separator, end):
    """Words in lines, each with the same start and end."""
    out, line = [], []
    for word in words:
        if line and len(start + separator.join(line + [word]) + end) > WIDTH:
            out.append(start + separator.join(line) + end)
            line = []
        line.append(word)
    return out + [start + separator.join(line) + end]


def shorter(text, tuples):
    """The text with each line that is too long in pieces."""
    out = []
    for line in text.split("\n"):
        use = re.match(r"(\s*(?:pub )?use [^{]*\{)(.*)(\}.*)$", line)
        if len(line) <= LONG:
            out.append(line)
        elif line.lstrip().startswith("--"):
            start = re.match(r"\s*-- ", line).group(0)
            out += filled(start, line.strip()[2:].split(), " ", "")
        elif use:
            out += filled(use.group(1), [name.strip() for name in use.group(2).split(",")], ", ", use.group(3))
        else:
            out += broken(line, tuples)
    return "\n".join(out)


def parts_of(group):
    """The parts of a tuple: its text between the commas that are its own."""
    depth, start, parts = 0, 1, []
    for at, char in enumerate(group):
        depth += (char in OPEN) - (char in CLOSE)
        if char == "," and depth == 1:
            parts.append(group[start:at].strip())
            start = at + 1
    return parts + [group[start:-1].strip()]


def in_a_row(group):
    """The parts of pairs nested to the right that end in tt; none where a group is something else."""
    parts = parts_of(group)
    if len(parts) != 2:
        return []
    if parts[1] == "tt":
        return [parts[0], "tt"]
    if not parts[1].startswith("(") or group_end(parts[1], 0) != len(parts[1]):
        return []
    rest = in_a_row(parts[1])
    return [parts[0]] + rest if rest else []


def beside(text):
    """Long pairs nested to the right, without their parentheses."""
    at = 0
    while (at := text.find("(", at)) >= 0:
        end = group_end(text, at)
        row = in_a_row(text[at:end]) if end - at > 100 and "\n" not in text[at:end] else []
        if len(row) > 3:
            text = text[:at] + "(" + " ∥ ".join(row) + ")" + text[end:]
        at += 1
    if "∥" in text and "Beside.{_∥_}" not in text:
        text = re.sub(r"^use ", "use Rattle·lent.proofs.Beside.{_∥_}\nuse ", text, count=1, flags=re.M)
    return text


def group_end(text, start):
    """Where the group that opens at start ends."""
    depth = 0
    for at in range(start, len(text)):
        depth += (text[at] in OPEN) - (text[at] in CLOSE)
        if depth == 0:
            return at + 1
    return len(text)


def lives_named(text):
    """In a walk: the lifetimes and the shares of what is lent, by name."""
    values = re.search(r"^( +)abbrev at : Vals f\.signature (\()", text, re.M)
    first = re.search(r"^ +abbrev x : Arg$", text, re.M)
    if not values or not first or re.search(r"(?<![\w.-])(lives|shares)(?![\w-])", text):
        return text
    lives = text[values.start(2) : group_end(text, values.start(2))]
    if len(lives) < 60 or ".life" not in lives:
        return text
    shares, pad = lives.replace(".life", ".share"), values.group(1)
    named = f"{pad}abbrev lives : Lfts (f.signature .lifetimes)\n{pad}lives = {lives}\n\n"
    named += f"{pad}abbrev shares : Shares (f.signature .lifetimes)\n{pad}shares = {shares}\n\n"
    before, after = (part.replace(lives, "lives").replace(shares, "shares") for part in (text[: first.start()], text[first.start() :]))
    before = re.sub(r"^use denote\.", "use contract.Lifetimes.{Lfts, Shares}\nuse denote.", before, count=1, flags=re.M)
    return before + named + after


def parameters(name):
    """The parameters of the function that a walk is of."""
    place = re.search(r"crates/([^/]+)/proofs/(.*)/Proof\.antt$", name)
    if not place:
        return []
    function = place.group(2).split("/")[-1].lstrip("+")
    found = subprocess.run(
        ["grep", "-rhzoP", rf"fn {function}\([^)]*\)", f"crates/{place.group(1)}/src"], capture_output=True, text=True, check=False
    )
    return re.findall(r"(\w+):", found.stdout.split("\0")[0])


def locals_told(name, text):
    """In a walk: which locals are which, and where they stand on entry."""
    count = len(re.findall(r"alloc1 ! \(λ\s+l[\d₀-₉]+\.", text))
    names = parameters(name)
    entered = [int(at) for at in re.findall(r"pass1 ! \(init ! (\d+) ", text)]
    if not text.startswith("--") or not count or "-- Locals: " in text:
        return text
    if entered != [2 * (count - 1 - i) for i in range(1, len(names) + 1)]:
        return text
    told = ["l0 the answer"] + [f"l{i} {one}" for i, one in enumerate(names, 1)]
    if count > len(told):
        told.append(f"from l{len(told)} on the code's own, as `rt mir` numbers them")
    where = f"On entry local li is thing {2 * (count - 1)} - 2·i of what is held; what is put in front of it moves it up."
    lines = text.split("\n")
    after = 1 + next(at for at, line in enumerate(lines) if line.endswith("."))
    return "\n".join(lines[:after] + filled("-- ", f"Locals: {', '.join(told)}. {where}".split(), " ", "") + lines[after:])


def main(files):
    for name in files:
        with open(name, encoding="utf-8") as file:
            text = file.read()
        new = shorter(shorter(beside(lives_named(locals_told(name, text))), False), True)
        if new != text:
            with open(name, "w", encoding="utf-8") as file:
                file.write(new)


if __name__ == "__main__":
    main(sys.argv[1:])
