"""Whether docs/terminal.md states each rule of tests/rows/rules.md, and whether the rule shows in the rows that are named for it: a part of
tests/test_sources.py.

rules.md has a table for each section of the page that has rules. For each rule the table quotes the page and names rows. The quotation
is in that section, once. So are the sections of the standard that the table gives; and a rule marked **Choice** is quoted from a
sentence that is marked so. The last table of rules.md quotes what no row shows, or names a section of the page. A sentence of any other
section, or a row of a table there, that nothing quotes fails.

reversed_rules.txt has the same rules, each with one or more reversals: changes that turn the rule round in a copy of the model
(rules.py, canonical.py, play.py). The unchanged model gives the answers that the rows state. A reversal passes if the changed model
answers a row of its rule otherwise. It fails if it makes no difference, or if the text that it changes isn't there once. A rule that
only one of the two lists has fails, and so does a row that no reversal of its rule shows.
"""

import functools
import pathlib
import re
import sys
import tomllib
import types
from typing import NamedTuple

import rows

HERE = pathlib.Path(__file__).resolve().parent
TOP = HERE.parent.parent

# the modules of the model, each after those that it imports
MODULES = ("rules", "canonical", "play")
SOURCES = {name: (HERE / f"{name}.py").read_text() for name in MODULES}

compiled = functools.cache(lambda name, source: compile(source, f"{name}.py", "exec"))


class Unfit(Exception):
    """Why a reversal can't be made."""


# ---- the list of rules, and the page


class Rule(NamedTuple):
    """A rule of rules.md: its section of the page, sections of the standard, a quotation, the rows that show it, and their file."""

    section: str
    name: str
    standard: str
    quotation: str
    named: str
    file: str


def tables_of(text):
    """The rows of the tables of rules.md, without the heads of the tables: the heading above each, and its cells."""
    for section in text.split("\n## ")[1:]:
        heading, *lines = section.splitlines()
        for line in [line for line in lines if line.startswith("|")][2:]:
            yield heading, [cell.strip().replace("\\|", "|") for cell in re.split(r"(?<!\\)\|", line)[1:-1]]


def sections_of(page):
    """The sections of the page by their headings."""
    return {section.split("\n", 1)[0]: section for section in page.split("\n## ")[1:]}


def sentences_of(section):
    """The sentences of a section and the rows of its tables, without blocks, drawings and the heads of tables."""
    text = re.sub(r"^(?:    .*|!\[.*|\|.*\n\|---.*)$", "", section.split("\n", 1)[1], flags=re.M)
    for block in re.split(r"\n(?=\n|\||- |\d+\. )", text):
        block = re.sub(r"^(?:- |\d+\. )", "", " ".join(block.split()))
        yield from (sentence for sentence in re.split(r"(?<=\.) ", block) if sentence)


def quoted(sentences, quotation):
    """How often a quotation is in these sentences, and the numbers of those that it is in for the first time."""
    text = " ".join(sentences)
    start, end, at, numbers = text.find(quotation), text.find(quotation) + len(quotation), 0, []
    for number, sentence in enumerate(sentences):
        if start < at + len(sentence) and at < end:
            numbers.append(number)
        at += len(sentence) + 1
    return text.count(quotation), numbers


def faults_of_page(page, rules, unshown):
    """Where the page and the list of rules differ."""
    sections = sections_of(page)
    named = dict.fromkeys(rule.section for rule in rules)
    yield from (f'docs/terminal.md has no section "{heading}"' for heading in named if heading not in sections)
    for heading in sections:
        sentences = list(sentences_of(sections[heading]))
        left = set() if heading in unshown else set(range(len(sentences)))
        for rule in (rule for rule in rules if rule.section == heading):
            times, numbers = quoted(sentences, rule.quotation)
            if times != 1 or not rule.quotation:
                yield f'{rule.name}: docs/terminal.md, "{heading}" has this {times} times: {rule.quotation}'
                continue
            left -= set(numbers)
            if "**Choice**" in rule.name and not all("**Choice**" in sentences[number] for number in numbers):
                yield f"{rule.name}: not marked as a choice in docs/terminal.md: {rule.quotation}"
            for number in sorted({*rule.standard.split(", ")} - {"", *re.findall(r"\d+(?:\.\d+)+", sections[heading])}):
                yield f'{rule.name}: docs/terminal.md, "{heading}" does not have {number}'
        for number in sorted(left):
            if not any(quotation in sentences[number] for quotation in unshown):
                yield f'no rule quotes docs/terminal.md, "{heading}": {sentences[number]}'
    yield from (f"not in docs/terminal.md: {quotation}" for quotation in unshown if quotation not in " ".join(page.split()))


# ---- reversals


def reversals_of(text):
    """The rules of reversed_rules.txt, each with its reversals: what IT stands for, and the changes."""
    lines = {}
    for line in text.splitlines():
        if line and not line.startswith((" ", "#")):
            lines[line] = kinds = []
        elif line.startswith("    "):
            kinds.append(line[4:])

    def those_of(rule):
        for line in lines[rule]:
            if line.startswith("as "):
                yield from those_of(line[3:])
            elif line.startswith("each "):
                names, changes = line[5:].split(": ", 1)
                yield from ((name, re.sub(r"\bIT\b", name, changes)) for name in names.split())
            else:
                yield "", line

    return {rule: list(those_of(rule)) for rule in lines}


def rows_named(named, file, it):
    """The names of a rule's rows; for one code, where there are rows of others, those of this code."""
    names = re.findall(r"`([^`]+)`", named)
    if "the same with bit 10 clear" in named:
        names += [name.replace("set", "clear") for name in names]
    if "the rows of" in named and it:
        names = [re.sub(r"code \d+", f"code {it}", name) for name in names]
    return [name if file == "rows.py" else f"{file.removesuffix('.txt')}: {name}" for name in names]


# ---- the model, and a changed one


def changed(changes):
    """The sources of the model with some changes."""
    sources = dict(SOURCES)
    for change in changes.split(" && "):
        if change.startswith("++ "):
            sources["rules"] += change[3:] + "\n"
            continue
        old, new = (part.replace("\\n", "\n") for part in re.fullmatch(r"(.*?) =>(?: (.*))?", change).groups(""))
        where = [name for name in MODULES if old in sources[name]]
        if len(where) != 1 or sources[where[0]].count(old) != 1:
            raise Unfit(f"{sum(source.count(old) for source in sources.values())} times there: {old}")
        sources[where[0]] = sources[where[0]].replace(old, new)
    return sources


def model_of(sources):
    """The modules of these sources, which import each other."""
    model = {name: types.ModuleType(name) for name in MODULES}
    kept = {name: sys.modules.get(name) for name in MODULES}
    sys.modules.update(model)
    try:
        for name in MODULES:
            exec(compiled(name, sources[name]), model[name].__dict__)
    finally:
        for name, module in kept.items():
            sys.modules.pop(name)
            if module:
                sys.modules[name] = module
    return types.SimpleNamespace(**model)


def stated(script):
    """The lines of a row's script that are events, each with the answer that is stated behind it."""
    events = []
    for line in script.splitlines():
        if line.startswith("#> "):
            events[-1][1] = line[3:]
        elif line.startswith("#+ "):
            events[-1][1] += f" {line[3:]}"
        elif line and not line.startswith("#"):
            events.append([line, None])
    return events


def answers_as_stated(model, row):
    """Whether a model gives the answers that a row states."""
    try:
        terminal = model.rules.Terminal(model.play.setup_of(tomllib.loads(row.profile)))
        for line, wanted in stated(row.script):
            answer = terminal.step(model.play.read_event(line.encode()))
            if (answer and model.play.answer_line(answer)) != wanted:
                return False
    except Exception as fault:
        raise Unfit(f"the changed model ends with {fault!r} in `{row.name}`") from fault
    return True


# ---- what is wrong


@functools.lru_cache(maxsize=None)
def known_rows():
    """The rows by their names."""
    return {row.name: row for row in rows.rows()}


@functools.lru_cache(maxsize=None)
def tables():
    """The rules of rules.md, by their names, and what no row shows."""
    found = list(tables_of((TOP / "tests/rows/rules.md").read_text()))
    rules = [Rule(heading, *cells[:-1], cells[-1].strip("`")) for heading, cells in found if len(cells) == 5]
    return {rule.name.replace("**Choice**: ", ""): rule for rule in rules}, [cells[0] for _, cells in found if len(cells) == 2]


@functools.lru_cache(maxsize=None)
def reversals():
    """The rules of reversed_rules.txt, each with its reversals."""
    return reversals_of((HERE / "reversed_rules.txt").read_text())


def unanswered():
    """The rows whose answers the unchanged model doesn't give as stated."""
    model = model_of(SOURCES)
    return [name for name, row in known_rows().items() if not answers_as_stated(model, row)]


def faults_of(rule, reversals):
    """What is wrong with the reversals of a rule."""
    known, shown, asked = known_rows(), set(), set()
    for it, changes in reversals:
        names = [name for name in rows_named(rule.named, rule.file, it) if name in known]
        asked |= set(names)
        try:
            model = model_of(changed(changes))
            differing = {name for name in names if not answers_as_stated(model, known[name])}
        except (Unfit, SyntaxError) as fault:
            yield f"{fault}"
            continue
        shown |= differing
        if not differing:
            yield f"makes no difference in {', '.join(names) or rule.named}: {changes}"
    yield from (f"no reversal shows in `{name}`" for name in sorted(asked - shown))
    if "the rows of" not in rule.named:
        yield from (f"no row `{name}`" for name in rows_named(rule.named, rule.file, "") if name not in known)
