#!/usr/bin/env python3
"""Turns the proofs of an older Rattle that walk the code by hand (proofs/F/Proof.antt) into Invariants.antt and Answers.antt.

usage: tools/port_proofs.py CRATE NAMES        NAMES is the names.json that `rt check --generated DIR --old-names` writes in the crate

It goes by the old and the new name of each goal and of each step. Answers that were only `search rules` are dropped. What it can't turn is printed
and left in Answers.antt as it was, to be mended by hand.
"""
import json
import pathlib
import re
import sys

WORD = r"[^\s(){}\[\].;,@\"«»:=]+"
USE = re.compile(r"^(?:pub )?use [^\n]*$", re.M)
PATH = re.compile(r"(?<![\w'₀-₉.·-])([A-Za-z_](?:[\w'₀-₉-])*)((?:\.[\w'₀-₉-]+)*)(?![\w'₀-₉-])")


def plain(name):
    return name.replace("-", "_").lower()


def closer(text, at):
    depth = 0
    for i in range(at, len(text)):
        depth += text[i] in "([{"
        depth -= text[i] in ")]}"
        if depth == 0:
            return i
    return len(text)


def args_of(text):
    """The arguments of an application, split at top level."""
    found, at = [], 0
    while at < len(text):
        if text[at].isspace():
            at += 1
        elif text[at] in "([{":
            end = closer(text, at)
            found.append(text[at: end + 1])
            at = end + 1
        else:
            m = re.match(r"[^\s()\[\]{}]+", text[at:])
            found.append(m[0])
            at += len(m[0])
    return found


class Function:
    """What Rattle says of a function's goals, steps and loops."""

    def __init__(self, said):
        self.needs, self.asked_at = said["needs"], said["asked_at"]
        self.loops, self.changed = said["loops"], said["changed"]
        self.place, self.arm, self.typed = {}, {}, {}
        for given, arm, typed in zip(said["places"], said["arms"], said["typed"]):
            self.place[plain(given[0])] = given
            self.arm[plain(given[0])] = arm
            self.typed[plain(given[0])] = typed or []
        self.said = said

    def goal(self, name):
        """The number of the goal that an old `Need-name` was."""
        name = re.sub(r"^overflow_", "", plain(name))
        for i, (old, new) in enumerate(self.needs):
            if re.sub(r"^overflow_", "", plain(old)) == name:
                return i
        return None

    def asked(self, i):
        return plain(self.asked_at[i][0]) if i < len(self.asked_at) else None

    def parent(self, place):
        found = self.place.get(place)
        return plain(found[1]) if found and found[1] else None

    def field(self, place, parts):
        """The new path of an old one, `parts` being a step and what follows it; None if there is no such step."""
        # (a step that has a lemma's old name was respelled with it)
        step = re.sub(r"_lem$", "", plain(parts[0]))
        if step in ("well_formed", "type_inv"):
            return ".".join([step, *parts[1:]])
        if step == "args" and len(parts) > 1:
            return ".".join(["args", parts[1].replace("-", "_"), *parts[2:]])
        if step in ("args", "requires", "ranges", "auto", "utf8", "type_inv"):
            return ".".join(parts)
        at = place
        while at:
            for name, was in self.typed[at]:
                if plain(was) == step and parts[1:2] == ["given"]:
                    return ".".join(["type_inv", name, *parts[2:]])
            given = self.place[at]
            old, new = given[2]
            arm = self.arm[at]
            if arm:
                best = None
                for name, was, path in arm[2]:
                    if plain(was) == step and parts[1: 1 + len(path)] == path and path and (best is None or len(path) > len(best[1])):
                        best = (name, path)
                if best:
                    return ".".join([arm[0], best[0], *parts[1 + len(best[1]):]])
            if plain(old) == step:
                renames = dict(given[4] or [])
                rest = parts[1:]
                if rest and rest[0] in renames:
                    rest = [renames[rest[0]], *rest[1:]]
                return ".".join([new, *rest])
            at = self.parent(at)
        return None


class Turned:
    def __init__(self, function, label):
        self.f, self.label, self.left = function, label, []

    def body(self, text, env):
        """A body with its paths turned; `env` has the place of each variable that is a record of facts."""
        env = dict(env)
        out, at = "", 0
        # a `let` that only names an earlier place goes
        let = re.compile(r"let ([\w'₀-₉-]+) = ([\w'₀-₉-]+)((?:\.before)*) in\b[ \t]*\n?[ \t]*")
        while True:
            m = let.search(text, at)
            if not m:
                break
            if m[2] in env:
                place = self.back(env[m[2]], m[3])
                out += text[at: m.start()]
                env[m[1]] = place
            else:
                out += text[at: m.end()]
            at = m.end()
        text = out + text[at:]

        def path(m):
            head, rest = m[1], [p for p in m[2].split(".") if p]
            if head not in env:
                return m[0]
            if text[m.end():].lstrip(" ")[:2] == "= " and text[: m.start()].rstrip()[-3:] == "let":
                return m[0]
            place = env[head]
            while rest and rest[0] == "before":
                rest = rest[1:]
            if not rest:
                if head != "c":
                    self.left.append(f"{m[0]} is a record of facts")
                return "c"
            new = self.f.field(place, rest) if place else None
            if new is None:
                self.left.append(f"{m[0]}: no step {rest[0]}")
                return "c." + ".".join(rest)
            # a method of std has named clauses
            new = re.sub(r"^(wrapping_(?:add|sub|mul)_u\d+[^.]*\.ensures)(?=$|\.[a-z0-9]*$)", r"\1.value", new)
            # an array that a call is lent is the list itself
            new = re.sub(r"(\.new\.\w+)(?:\.1)+\.0(?![\w])", r"\1", new)
            return "c." + new.replace(".type-inv", ".type_inv")

        return PATH.sub(path, text)

    def back(self, place, befores):
        # steps have names of their own, so the goal's place will do for all that came before it
        return place


def blocks(text):
    """The declarations at the margin: (comment, name, lines)."""
    text = re.sub(r"^(\S+ :)\s*\n\s+(tie\.)", r"\1 \2", text, flags=re.M)
    lines, found, comment, current = text.split("\n"), [], [], None
    for line in lines:
        if line.startswith("--"):
            if current:
                found.append(current)
                current = None
            comment.append(line)
        elif line and not line[0].isspace():
            m = re.match(r"(?:abbrev |unfoldable )?(?:pub )?(?:data |record )?(" + WORD + ")", line)
            if not m:
                current[2].append(line)
                continue
            name = m[1]
            if name in ("use", "module", "open", "infix", "infixl", "infixr"):
                if current:
                    found.append(current)
                current = (comment, None, [line])
                comment = []
            elif name == "unfolding" or current and current[1] == name:
                current[2].append(line)
            else:
                if current:
                    found.append(current)
                current = (comment, name, [line])
                comment = []
        elif current:
            current[2].append(line)
        elif comment and not line:
            found.append((comment, None, []))
            comment = []
    if current:
        found.append(current)
    return found


def vars_of(function, old):
    """An old invariant's arguments, as today's `l` has them."""
    for ((was, new), names), changed in zip(function.loops, function.changed):
        if plain(was) == plain(old):
            moved = [n for n, c in zip(names, changed) if c]
            args = [f"l.initial.{n}" if c else f"l.{n}" for n, c in zip(names, changed)]
            return new, args + [f"l.{n}" for n in moved]
    return None, None


def invariant(function, kind, old, lines, said):
    new, values = vars_of(function, old)
    if new is None:
        said.append(f"no loop {old}")
        return None
    text = "\n".join(lines)
    m = re.search(r"^(?:abbrev )?" + re.escape(f"{kind}-{old}") + r"((?:\s+" + WORD + r")*)\s*=", text, re.M)
    if not m:
        said.append(f"{kind}-{old} is not one equation")
        return None
    names = m[1].split()
    if len(names) != len(values):
        # by name: a temporary of the older Rattle's own has none today
        values = [f"l.initial.{n[:-1]}" if n.endswith("₀") else f"l.{n}" for n in names]
    swap = {n: v for n, v in zip(names, values) if n != "_"}

    whole = text[m.end():]

    def word(w):
        if re.match(r" = ", whole[w.end():]) and whole[: w.start()].rstrip()[-1:] in "{;":
            return w[0]
        return swap[w[1]] + w[2] if w[1] in swap else w[0]

    body = PATH.sub(word, whole)
    return f"abbrev pub {kind}-{new} : goal.{kind}-{new}\n{kind}-{new} l ={body}"


def turn(crate, proof, function, module):
    text = proof.read_text(encoding="utf-8")
    said, invariants, answers, uses, head = [], [], [], [], []
    done = set()
    found = blocks(text)
    helper_names = {}
    for comment, name, lines in found:
        if name and lines:
            m = re.match(r"(?:abbrev )?" + re.escape(name) + r" : tie\.(Need-)?([^\s]+)", lines[0])
            if m and m[1]:
                helper_names[name] = m[2]
    for comment, name, lines in found:
        while lines and not lines[-1].strip():
            lines.pop()
        if name is None:
            for line in lines:
                if line.startswith("use") and (".Statement." in line or ".Tie as" in line or line.endswith(".Tie")):
                    continue
                uses.append(line)
            if comment and not head:
                head = comment
            elif comment:
                answers.append("\n".join(comment))
            continue
        if comment and not head and not answers and not invariants:
            head, comment = comment, []
        joined = "\n".join(lines)
        m = re.match(r"abbrev (invariant|decreases)-(" + WORD + r") : tie\.", lines[0])
        if m:
            made = invariant(function, m[1], m[2], lines[1:], said)
            invariants.append("\n".join([*comment, made if made else "-- LEFT\n" + joined]))
            continue
        if name in helper_names and " : tie.Need-" in lines[0]:
            i = function.goal(helper_names[name])
            if i is None:
                said.append(f"no goal {helper_names[name]}")
                answers.append("\n".join([*comment, "-- LEFT", joined]))
                continue
            new = function.needs[i][1]
            done.add(i)
            made = Turned(function, name)
            rest = "\n".join(lines[1:])
            unfold = ""
            u = re.match(r"((?:unfolding [^\n]*\n)+)", rest)
            if u:
                unfold, rest = u[1], rest[u.end():]
            eq = re.match(re.escape(name) + r"((?:\s+" + WORD + r")*)\s*=", rest)
            if not eq:
                said.append(f"{name} is not one equation")
                answers.append("\n".join([*comment, "-- LEFT", joined]))
                continue
            params = eq[1].split()
            env = {params[0]: function.asked(i)} if params else {}
            body = made.body(rest[eq.end():], env)
            more = [w for w in params[1:] if w != "κs"]
            body = f" λ {' '.join(more)}.{body}" if more else body
            said += [f"{name}: {it}" for it in made.left]
            body = re.sub(r"^\s*\n", "\n", body)
            answers.append("\n".join([*comment, f"pub {new} : goal.{new}\n{unfold}{new} c ={body}"]))
            continue
        if "tie.close" in joined or re.match(r"pub \S+[-_]spec : ", lines[0]):
            m = re.search(r"tie\.spec\b", joined)
            if m:
                rest = joined[m.end():]
                # up to the parenthesis that closes it
                depth = 0
                for k, ch in enumerate(rest):
                    depth += ch in "([{"
                    depth -= ch in ")]}"
                    if depth < 0:
                        rest = rest[:k]
                        break
                given = args_of(rest)
                given = [g for g in given if not re.match(r"(invariant|decreases)-", g)]
                if len(given) != len(function.needs):
                    said.append(f"{len(given)} answers, and {len(function.needs)} goals")
                for i, it in enumerate(given):
                    if i >= len(function.needs) or it in helper_names or re.fullmatch(r"\(λ c(?: κs)?\. search rules\)", re.sub(r"\s+", " ", it)):
                        continue
                    new = function.needs[i][1]
                    m = re.match(r"\(λ (\S+?)((?: \S+?)*)\. ", it)
                    if not m:
                        answers.append(f"pub {new} : goal.{new}\n{new} c = {it} c")
                        continue
                    made = Turned(function, new)
                    body = made.body(it[m.end(): -1], {m[1]: function.asked(i)})
                    more = [w for w in m[2].split() if w != "κs"]
                    body = f"λ {' '.join(more)}. {body}" if more else body
                    said += [f"{new}: {s}" for s in made.left]
                    answers.append(f"pub {new} : goal.{new}\n{new} c = {body}")
            else:
                said.append("no tie.spec")
            continue
        if "tie." in joined:
            said.append(f"{name} names the tie")
            answers.append("\n".join([*comment, "-- LEFT", joined]))
        else:
            answers.append("\n".join([*comment, joined]))
    # names of other helpers that answers cite
    folder = proof.parent
    head = [line for line in head if line.strip() != "-- Assumes nothing."]
    if invariants:
        (folder / "Invariants.antt").write_text("\n".join([*head, *uses, f"use {module}.Given as goal", ""]) + "\n" + "\n\n".join(invariants) + "\n", encoding="utf-8")
    if answers:
        (folder / "Answers.antt").write_text("\n".join([*([] if invariants else head), *uses, f"use {module}.Goals as goal", ""]) + "\n" + "\n\n".join(answers) + "\n", encoding="utf-8")
    proof.unlink()
    return said


def cycle(proof, name):
    """Writes the proof of a function that calls itself as one that does not; its measure is the author's to write again."""
    kebab = name.replace("_", "-")
    t = proof.read_text(encoding="utf-8")
    t = re.sub(rf"({kebab}-[\w-]+) : \(t : ℕ\) → {kebab}-lts\.(Need-[\w-]+) \(claims t\) \({kebab}-at t\) {kebab}\.Post", r"\1 : tie.\2", t)
    t = re.sub(rf"^({kebab}-[\w-]+) t c", r"\1 c", t, flags=re.M)
    a = t.index("abbrev μ-")
    measure = re.search(r"^μ-\S+ κs a = (.*)$", t, re.M)[1]
    b = re.search(rf"^{kebab}-[\w-]+ : tie\.", t, re.M).start()
    t = t[:a] + t[b:]
    t = t[: t.index(f"pub +{kebab}-spec")]
    t = "\n".join(line for line in t.split("\n") if not re.match(r"use (Prim.Native.Nat|borrow.Fn|Rattle\.\w+\.proofs\..*( as |Tie|statement))", line))
    proof.write_text(t, encoding="utf-8")
    return measure


def main():
    crate = pathlib.Path(sys.argv[1])
    text = pathlib.Path(sys.argv[2]).read_text(encoding="utf-8")
    names = {}
    for line in text.splitlines():
        if line.startswith("{"):
            names.update(json.loads(line))
    for proof in sorted(crate.glob("proofs/**/Proof.antt")):
        parts = proof.parent.relative_to(crate / "proofs").parts
        key = f"Rattle-{crate.name}-proofs." + ".".join(parts) + ".Lts"
        module = f"Rattle.{crate.name}.proofs." + ".".join(parts)
        if key not in names and parts[-1].startswith("+") and key + "-" + parts[-1][1:] in names:
            measure = cycle(proof, parts[-1][1:])
            for it in turn(crate, proof, Function(names[key + "-" + parts[-1][1:]]), module):
                print(f"left: {proof.parent}: {it}")
            answers = proof.parent / "Answers.antt"
            answers.write_text(re.sub(r"^([\w-]+) c =", r"\1 t c =", answers.read_text(encoding="utf-8"), flags=re.M), encoding="utf-8")
            (proof.parent / "Invariants.antt").write_text(f"use {module}.Given as goal\n\nabbrev pub decreases-{parts[-1][1:]} : goal.decreases-{parts[-1][1:]}\ndecreases-{parts[-1][1:]} l = ?{measure}\n", encoding="utf-8")
            continue
        if key not in names:
            print(f"left: {proof}: Rattle names no goals of it ({key})")
            continue
        for it in turn(crate, proof, Function(names[key]), module):
            print(f"left: {proof.parent}: {it}")


main()
