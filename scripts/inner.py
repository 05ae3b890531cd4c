"""Whether who reads the public contracts can do without specs/inner: a part of tests/test_sources.py.

Looks at each clause, `ensures` or `requires`, of the functions that callers of a library can reach, and at each definition under
its specs/ but outside specs/inner. None of them may cite a name that is imported from a specs/inner, of its own crate or another;
what private functions say may.
"""

import re

USE = re.compile(r"^ *(pub )?(?:ghost )?use (\w+(?:\.\w+)*\.specs\.inner(?:\.\w+)*)(?:\.\{([^}]*)\})?(?: as (\w+))?", re.M)
DEFINITION = re.compile(r"^(?:(?:abbrev|unfoldable|pub|record|data|postulate) )+(\S+)", re.M)
BLOCK = re.compile(r"^(?:pub )?(?:unsafe )?(?:impl|trait)\b.*?^}$", re.M | re.S)
FUNCTION = re.compile(r"\b(pub )?(?:const |unsafe )*fn (\w+)")


def imported(text):
    """The local names that a text imports from a specs/inner: names, and modules, whose names follow a dot."""
    names, modules = set(), set()
    for _, path, listed, alias in USE.findall(text):
        if listed:
            names |= {name.split(" as ")[-1].strip() for name in listed.split(",")}
        else:
            modules.add(alias or path.split(".")[-1])
    return names, modules


def cited(text, names, modules):
    """Those of these names, and of the names in these modules, that stand in a text."""
    edge = r"[\w'\-«»]"
    for name in sorted(names):
        parts = [part for part in name.split("◌") if part.strip()]
        if parts and all(re.search(rf"(?<!{edge})(?<!\.){re.escape(part)}(?!{edge})", text) for part in parts):
            yield name
    for module in sorted(modules):
        yield from (f"{module}.{name}" for name in re.findall(rf"(?<!{edge}){re.escape(module)}\.([\w'\-]+)", text))
    yield from re.findall(r"[\w.]*\bspecs\.inner\.[\w.'\-]+", text)


def plain(text, mark):
    """A text without its comments, which a mark begins, and without what stands in quotes."""
    return re.sub(rf'"(?:\\.|[^"\\])*"|{mark}[^\n]*', lambda found: '""' if found[0][0] == '"' else "", text)


def definitions(text):
    """The definitions of an antt file, each with its name: all lines up to the next one."""
    text = plain(text, "--")
    text = re.sub(r"^(?:pub )?use [^{\n]*(?:\{[^}]*\})?[^\n]*\n", "", text, flags=re.M)
    starts = [found.start() for found in DEFINITION.finditer(text)] + [len(text)]
    for start, end in zip(starts, starts[1:]):
        name = DEFINITION.match(text, start)[1]
        if text[start:end].split()[:2] != ["pub", "mod"]:
            yield name, text[start:end]


def head_of(text, start):
    """The signature and the clauses of the function that begins here, each clause with the place where it begins."""
    clauses, depth, at, word = [], 0, start, start
    while at < len(text):
        if text[at] in "([":
            depth += 1
        elif text[at] in ")]":
            depth -= 1
        elif text[at] == ";" and depth == 0:
            break
        elif text[at] == "{" and depth == 0:
            kind = re.search(r"\b(ensures|requires)\b[\s\w]*$", text[word:at])
            if not kind:
                break
            end, braces = at, 0
            while True:
                braces += {"{": 1, "}": -1}.get(text[end], 0)
                end += 1
                if braces == 0:
                    break
            clauses.append(text[at:end])
            word = at = end
            continue
        at += 1
    return text[start:at], clauses


def functions(text):
    """The functions of a module: whether each is public, the type or trait that it belongs to, its name, its head, its clauses,
    and the text in whose scope it stands."""
    blocks = [(found.start(), found.end()) for found in BLOCK.finditer(text)]
    alone = text
    for start, end in reversed(blocks):
        alone = alone[:start] + alone[end:]
    for found in FUNCTION.finditer(alone):
        yield bool(found[1]), None, found[2], *head_of(alone, found.start()), alone
    for start, end in blocks:
        block = text[start:end]
        owner = re.sub(r"<[^<>]*>", "", re.sub(r"<[^<>]*>", "", block.split("{")[0].split(" where ")[0]))
        is_of_trait = " for " in owner or re.match(r"(?:pub )?trait\b", owner) is not None
        name = re.findall(r"\w+", owner.split(" for ")[-1].split(":")[0])[-1]
        for found in FUNCTION.finditer(block):
            yield bool(found[1]) or is_of_trait, name, found[2], *head_of(block, found.start()), alone + block


def exported(text):
    """What a crate's lib.rt lets out: names, and modules of its own."""
    names, modules = set(), set(re.findall(r"^pub mod (\w+);", text, re.M))
    for path, listed in re.findall(r"^pub use ([\w:]+?)(?:::\{([^}]*)\})?;", text, re.M | re.S):
        listed = listed if listed else path.split("::")[-1]
        names |= {name.split(" as ")[0].strip() for name in listed.split(",")}
    return names, modules


def reachable(crate):
    """The functions that callers of a crate can reach: those that are let out by name or stand in a module that is, and the methods
    of types that are let out or that such a function's head names."""
    files = {path: plain(path.read_text(), "//") for path in sorted((crate / "src").rglob("*.rt"))}
    names, modules = exported(files[crate / "src/lib.rt"])
    inside = [(path, function) for path, text in files.items() for function in functions(text)]
    types, found = set(names), []
    while True:
        found = [(path, f) for path, f in inside if f[0] and (f[1] in types if f[1] else f[2] in names or path.stem in modules)]
        more = types | {word for _, f in found for word in re.findall(r"\b[A-Z]\w+", f[3])}
        if more == types:
            return found
        types = more


def public_specs(crate):
    """The files of the specs of a crate that are outside of specs/inner."""
    inner = crate / "specs/inner"
    return [path for path in sorted((crate / "specs").rglob("*.antt")) if path != inner.with_suffix(".antt") and inner not in path.parents]


def citations(crate):
    """The definitions and clauses of a crate that its callers read: the file, the name, and which names of a specs/inner each cites;
    and what a file hands on of one."""
    for path in public_specs(crate):
        text = path.read_text()
        yield from ((path, "pub use", [found[2]]) for found in USE.finditer(text) if found[1])
        yield from ((path, name, sorted(set(cited(body, *imported(text))))) for name, body in definitions(text))
    for path, (_, owner, function, _, clauses, scope) in reachable(crate):
        name = f"{owner}::{function}" if owner else function
        yield from ((path, name, sorted(set(cited(clause, *imported(scope))))) for clause in clauses)
