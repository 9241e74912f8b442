#!/usr/bin/env python3
"""Check that something runs every function of the crates, and that every public one has a stated outcome.

usage: tests/public_calls.py        (from anywhere; quick where the crates are proved, as `rt check` and scripts/archives leave them)

A function is run if it can be reached from a program's `main`, or from a function exported to C (`#[unsafe(no_mangle)]`) that the comparison
calls (its name occurs in compare/src; compare/build refuses one that is declared there and never called). Which function calls which is
the compiler's own account, whose names are whole paths, so that two functions of one name in different modules are two: of a library what
its build wrote, each function with those that it names; of a program and of a static library, which no crate stands on, the functions of
other crates that `rt check --list-calls` lists for all of it. Which functions of such a crate call one another is read from its text; a
listed call counts as run where one of its functions does, and any of them that nothing runs is said below. A public function has an
`ensures`, and no `requires`: it asks nothing of its caller. An impl of a trait, whose functions are public without the word, says by a `ghost`
item of the trait what they promise. A call is a function that a crate above the readers (in crates.txt, from `steps` on) offers to other crates
or to C; one that takes segments, by themselves or in a `SwiftRuntime`, tests them, so every `ensures` of it cites `guarded`.
Prints a line for each function that breaks this; exit status 1 if there is one.
"""
import json
import pathlib
import re
import sys

sys.dont_write_bytecode = True
TOP = pathlib.Path(__file__).resolve().parent.parent
sys.path.insert(0, str(TOP / "scripts"))

from kit import Work, sum_of  # noqa: E402

LISTED = TOP / "target" / "calls"

ITEM = re.compile(
    r"^(?:impl(?:<[^>]*>)? (?:(?P<trait>[\w:]+(?:<[^>]*>)?) for )?(?P<type>\w+)|(?P<close>\})|(?P<export>#\[unsafe\(no_mangle\)\])"
    r'|\s*(?P<pub>pub )?(?:pub\(\w+\) )?(?:const )?(?:extern "\w*" )?fn (?P<name>\w+))',
    re.M,
)


class Function:
    def __init__(self, path, file, line, public, exported, signature, clauses, body):
        self.path, self.file, self.line, self.signature, self.body = path, file, line, signature, body
        self.public, self.exported, self.clauses = public, exported, [word for word, _ in clauses]
        self.takes_segments = re.search(r"\bsegments: &(?:'\w+ )?\[u64\]|\bSwiftRuntime\b", signature) is not None
        self.guarded = all("guarded" in said for word, said in clauses if word == "ensures")

    def offered(self):
        """Whether other crates can call it: lib.rt has it, or names it or its type."""
        lib = self.file.parent / "lib.rt"
        if self.exported or self.file == lib:
            return self.public
        return self.public and lib.exists() and bool(passed_on(lib) & set(self.path.split("::")[-2:]))

    def __str__(self):
        return f"{self.file.relative_to(TOP)}:{self.line}: {self.path}"


def passed_on(lib):
    """The names that a lib.rt offers of its modules, by `pub use`."""
    found = re.findall(r"^pub use [\w:]+?::(?:(\w+)|\{([^}]*)\});", lib.read_text(encoding="utf-8"), re.M)
    return {name.strip() for one, several in found for name in (one, *several.split(",")) if name.strip()}


def end_of_block(text, opening):
    """The place after the brace that closes the one at `opening`."""
    depth, at = 1, opening + 1
    while depth:
        depth += {"{": 1, "}": -1}.get(text[at], 0)
        at += 1
    return at


def clauses_of(text, at):
    """What follows a function's name: its signature; each block after `ensures` or `requires`, with that word; and its body."""
    signature, clauses = text[at : text.index("{", at)], []
    while True:
        opening = text.index("{", at)
        word = re.search(r"\b(ensures|requires)\*?(?:\s+\w+)?\s*$", text[at:opening])
        at = end_of_block(text, opening)
        if not word:
            return signature, clauses, text[opening:at]
        clauses.append((word[1], text[opening:at]))


def code_of(file):
    """The text of a file without comments, and without what stands in literals: a brace or a quote there is none."""
    return re.sub(r'//[^\n]*|"(?:[^"\\]|\\.)*"|\'(?:[^\'\\]|\\.)\'', lambda found: "" if found[0][0] == "/" else '""', file.read_text(encoding="utf-8"))


def module_of(crate, file):
    inner = file.relative_to(TOP / "crates" / crate / "src").with_suffix("").parts
    return "::".join((crate, *(() if inner in (("lib",), ("main",)) else inner)))


def functions_of(crate):
    """The functions of a crate, from its source in the formatter's layout."""
    source, homes = TOP / "crates" / crate / "src", {}
    for file in sorted(source.rglob("*.rt")):
        for name in re.findall(r"^(?:pub )?(?:enum|struct) (\w+)", file.read_text(encoding="utf-8"), re.M):
            homes[name] = module_of(crate, file)
    for file in sorted(source.rglob("*.rt")):
        text = code_of(file)
        module = module_of(crate, file)
        inside, exported = module, False
        for item in ITEM.finditer(text):
            if item["type"]:
                # The compiler names an impl by the module of its type, and that of a trait by its words: `U64FromRefusal` is
                # `impl From<Refusal> for u64`.
                words = [item["type"], *re.findall(r"\w+", item["trait"].split("::")[-1])] if item["trait"] else []
                inside = f"{module}::{''.join(word[0].upper() + word[1:] for word in words)}"
                if not words:
                    inside = f"{homes.get(item['type'], module)}::{item['type']}"
            elif item["close"]:
                inside = module
            elif item["export"]:
                exported = True
            else:
                line = text.count("\n", 0, item.start("name")) + 1
                path = f"{inside}::{item['name']}"
                yield Function(path, file, line, bool(item["pub"]), exported, *clauses_of(text, item.end()))
                exported = False


def derived(crate):
    """The impls that a crate's derives write, as the compiler names them: `StopPartialEq` is that of `#[derive(PartialEq)] enum Stop`."""
    source = TOP / "crates" / crate / "src"
    for file in sorted(source.rglob("*.rt")):
        module = module_of(crate, file)
        for traits, name in re.findall(r"#\[derive\(([^)]*)\)\]\s*(?:pub )?(?:enum|struct) (\w+)", file.read_text(encoding="utf-8")):
            yield from (f"{module}::{name}{trait.strip()}" for trait in traits.split(","))


def lawless(crate):
    """The impls of traits that say nothing of what their functions promise, as `FILE:LINE: HEAD`. An item `can_…` says what they ask."""
    for file in sorted((TOP / "crates" / crate / "src").rglob("*.rt")):
        text = code_of(file)
        for head in re.finditer(r"^(?:unsafe )?impl\b[^{]*?\bfor\b(?!<)[^{]*(?=\{)", text, re.M):
            inside = text[head.end() : end_of_block(text, head.end())]
            items = re.findall(r"^    ghost (?!can_)\w+[^=;]*= \{\s(.*?)\s\};$", inside, re.M | re.S)
            if re.search(r"\bfn ", inside) and all(re.fullmatch(r"(?:λ[^.]*\.\s+)*(?:None|⊤|Unit \{0\})", said.strip()) for said in items):
                yield f"{file.relative_to(TOP)}:{text.count(chr(10), 0, head.start()) + 1}: {' '.join(head[0].split())}"


def stop(what, said):
    sys.exit(f"public_calls.py: {what}: {said.strip()[-600:]}")


def listed(crate, work):
    """The functions of a program or static library, and those of other crates that it calls, as the check of it lists them."""
    kept, stamp = LISTED / crate, sum_of([crate, *(below.name for below in work.crates[crate].below())])
    if not kept.exists() or not kept.read_text(encoding="utf-8").startswith(stamp):
        status, said = work.run(crate, "check", "--list-calls")
        if status:
            stop(f"`rt check --list-calls` failed in crates/{crate}", said)
        LISTED.mkdir(parents=True, exist_ok=True)
        kept.write_text(f"{stamp}\n{said}", encoding="utf-8")
    said = kept.read_text(encoding="utf-8")
    own = {owner(path) for path in re.findall(r"^fn ([\w:]+): proved", said, re.M)}
    others = set(re.findall(r"^  ([\w:]+)$", "".join(re.findall(r"^calls \w+: \d+ functions?\n((?:  .*\n)*)", said, re.M)), re.M))
    return own, others


def owner(path):
    """The function that a closure stands in, or the function itself."""
    before, closure, after = path.partition("::fn::")
    return f"{before}::{after.split('::')[0]}" if closure else path


def named_in(value):
    """The functions that a part of a library's code names, called or not."""
    if isinstance(value, dict):
        if "Fn" in value:
            yield value["Fn"][0]
        for inner in value.values():
            yield from named_in(inner)
    elif isinstance(value, list):
        for inner in value:
            yield from named_in(inner)


def calls_in_text(function, own):
    """The functions of a crate that a function's body calls, by its text."""
    module = function.path.split("::")[-2]
    for dot, qualifier, name in re.findall(r"(\.)?(?:\b(\w+)::)?\b(\w+)\s*(?:::<[^>]*>)?\(", function.body):
        named = [other.path for other in own if other.path.split("::")[-1] == name]
        inside = module if qualifier in ("Self", "self") else qualifier
        if dot:
            yield from (path for path in named if path.split("::")[-2][0].isupper())
        elif inside and qualifier not in ("crate", "super"):
            yield from (path for path in named if path.split("::")[-2] == inside)
        else:
            free = [path for path in named if not path.split("::")[-2][0].isupper()]
            yield from [path for path in free if path.split("::")[-2] == module] or free
    yield from handed_on(function, own)


def handed_on(function, own):
    """The functions of a crate that a function's body hands on by their names, as in `map(row_numbers)`. A parameter is a value, and so is what a
    `let`, a `for`, a closure's head or an arm's pattern names."""
    names = set(re.findall(r"(?<=[(,\s])(\w+)(?=\s*[,)])", function.body))
    names -= set(re.findall(r"(\w+): ", function.signature))
    heads = r"\blet ([^=;]+)|\bfor ([^{}]+?) in |\|([^|\n]*)\||([^\n]*?)(?: if [^\n]*)? =>|\{([^{}]*)\}[\s),]*=>"
    names -= set(re.findall(r"\w+", " ".join(map(" ".join, re.findall(heads, function.body)))))
    yield from (other.path for other in own if other.path.split("::")[-1] in names and not other.path.split("::")[-2][0].isupper())


def calls_of(crate, own, work):
    """For each function of a crate, the functions that it calls; it must be one that the compiler knows, and the other way round."""
    library = TOP / "crates" / crate / "out" / "rlib" / f"{crate}.rlib" / "toolchain" / "mir.json"
    if is_top(crate):
        compiled, others = listed(crate, work)
        calls = {function.path: {*calls_in_text(function, own), *others} for function in own}
    elif not own:
        return {}
    elif not library.exists():
        stop(f"crates/{crate} is not built", "`rt check` of a crate that stands on it builds it")
    else:
        calls = {}
        for path, code in json.loads(library.read_text(encoding="utf-8")):
            calls.setdefault(owner(path), set()).update(map(owner, named_in(code)))
        compiled = set(calls)
        for function in own:
            calls.setdefault(function.path, set()).update(handed_on(function, own))
    read, written = {function.path for function in own}, set(derived(crate))
    # (nor has the text what the compiler writes for a closure's end, as `Destruct++none::drop`)
    compiled = {path for path in compiled if path.rpartition("::")[0] not in written and "+" not in path}
    if read != compiled:
        stop(f"its reading of crates/{crate}/src is not the compiler's", str(sorted(read ^ compiled)))
    return calls


def is_top(crate):
    """Whether it is a program or a static library."""
    folder = TOP / "crates" / crate / "src"
    return (folder / "main.rt").exists() or any("#[unsafe(no_mangle)]" in file.read_text(encoding="utf-8") for file in folder.rglob("*.rt"))


def main():
    lines = (TOP / "crates.txt").read_text(encoding="utf-8").splitlines()
    crates = [line.split(":")[0].split()[0] for line in lines if line.strip() and not line.startswith("#")]
    own = {crate: list(functions_of(crate)) for crate in crates}
    functions = [function for crate in crates for function in own[crate]]
    driver = "".join(re.sub(r"//[^\n]*", "", file.read_text(encoding="utf-8")) for file in (TOP / "compare" / "src").glob("*.rs"))
    compared = set(re.findall(r"\bhodrupec_\w+", driver))

    roots = {f"{crate}::main" for crate in crates} & {function.path for function in functions}
    roots |= {function.path for function in functions if function.exported and function.path.split("::")[-1] in compared}
    work, calls = Work(), {}
    # The check of a program or static library builds what it stands on, so these come first.
    for crate in sorted(crates, key=lambda crate: not is_top(crate)):
        calls.update(calls_of(crate, own[crate], work))
    run, left = set(), list(roots)
    while left:
        path = left.pop()
        if path not in run:
            run.add(path)
            left.extend(calls.get(path, ()))

    above = set(crates[crates.index("steps") :])
    tested = [f for f in functions if f.takes_segments and f.path.split("::")[0] in above and f.offered()]
    wrong = 0
    for function in functions:
        said = []
        if function in tested and not function.guarded:
            said.append("a call that takes segments, and an `ensures` does not cite `guarded`")
        if function.path not in run:
            said.append("exported, and the comparison does not call it" if function.exported else "no program, test or compared export runs it")
        if function.public and "ensures" not in function.clauses:
            said.append("public, without an `ensures`")
        if function.public and "requires" in function.clauses:
            said.append("public, with a `requires`")
        for what in said:
            wrong += 1
            print(f"{function}: {what}")
    for where in (where for crate in crates for where in lawless(crate)):
        wrong += 1
        print(f"{where}: an impl, without a `ghost` item that says what it promises")
    if wrong == 0:
        public = sum(function.public for function in functions)
        print(f"public calls: {len(functions)} functions, {public} of them public, are run from {len(roots)} programs and compared exports")
        print(f"public calls: {len(tested)} calls take segments, and cite `guarded`")
    return 1 if wrong else 0


if __name__ == "__main__":
    sys.exit(main())
