#!/usr/bin/env python3
"""The commands of `rt1553-tool`, and the man pages and the completions of both programs, made of manual/arguments.toml, and the man pages
of scripts and profiles, made of docs/script.md and docs/profile.md.

    scripts/manual.py write      writes them
    scripts/manual.py version    prints the version of the programs, as it stands in the program's source

tests/test_manual.py compares the files with what is written, and the description with what the programs say of themselves and do.
The version in a page is that of `rt1553-tool --version`: both stand in the program's source.
"""
import collections
import pathlib
import re
import sys
import textwrap
import tomllib

TOP = pathlib.Path(__file__).resolve().parent.parent
WORDS = TOP / "manual/arguments.toml"
VERSIONS = TOP / "crates/rt1553_tool_args/src/versions.rt"
MADE = "made by scripts/manual.py of manual/arguments.toml"
# what the program calls the arguments that a command takes
IDENTITIES = {"P": "profile", "Q": "other", "SCRIPT": "script", "TABLE": "table", "MESSAGES": "messages"}
# the endings by which files are completed
ENDINGS = {
    "profile": ["toml", "rt1553"], "script": ["script"], "messages": ["messages"], "results": ["csv"], "table": ["csv"], "folder": [],
}


def version():
    """The version of the programs, and that of the canonical text which they write."""
    return re.search(r'\$told!\("([^"]+)", "(\d+)", "[^"]+"\)$', VERSIONS.read_text(), re.MULTILINE).groups()


# --- man pages, in mdoc ---


def escaped(text):
    """A line of text as mdoc takes it."""
    return re.sub(r"^(?=[.'])", r"\\&", text.replace("\\", "\\e"))


def typed(text):
    """Text that is typed or printed so: its hyphens are those of the keyboard."""
    return escaped(text).replace("-", "\\-")


def literal(text):
    """What stands between backticks, as one argument of a macro."""
    return '"' + typed(text).replace('"', "\\(dq") + '"'


# what isn't plain in a sentence, with what stands right before and behind it: strong, between pairs of stars, and literal, between backticks
MARKED = re.compile(r"(\*\*.+?\*\*[^\s`*]*|[^\s`*]*`[^`]+`[^\s`*]*)")


def behind(text):
    """What stands right behind the argument of a macro: letters, and marks that end or close."""
    letters, marks = re.fullmatch(r"(.*?)([.,;:?!)\]]*)", text).groups()
    return (f" Ns {literal(letters)}" if letters else "") + "".join(f" {mark}" for mark in marks)


def lines_of(sentence, plain="{}"):
    """The lines of a sentence; what is plain in it stands in the macro."""
    for part in MARKED.split(sentence):
        if part.startswith("**"):
            strong, _, rest = part[2:].partition("**")
            mark = re.search(r"[.:]?$", strong)[0]
            *lines, last = lines_of(strong.removesuffix(mark), ".Sy {}")
            yield from [*lines, last + behind(mark + rest)]
        elif "`" in part:
            before, text, rest = part.split("`")
            yield (f".Pf {literal(before)} Ql" if before else ".Ql") + f" {literal(text)}{behind(rest)}"
        else:
            for line in textwrap.wrap(part.strip(), 78, break_on_hyphens=False):
                yield plain.format(literal(line)) if plain != "{}" else escaped(line)


def sentences_of(paragraph):
    """The sentences of a paragraph, not broken within backticks."""
    held = re.sub(r"`[^`]+`", lambda found: found[0].replace(" ", "\0"), " ".join(paragraph.split()))
    return [sentence.replace("\0", " ") for sentence in re.split(r"(?<=[.:])\s+|(?<=[.:]\*\*)\s+", held)]


def paragraph_of(text):
    """A paragraph, each sentence in lines of its own."""
    for sentence in sentences_of(text):
        yield from lines_of(sentence)


def paragraphs(text):
    """Paragraphs, with macros between them."""
    for number, paragraph in enumerate(text.strip().split("\n\n")):
        if number:
            yield ".Pp"
        yield from paragraph_of(paragraph)


def synopsis_of(command):
    """The words of a synopsis behind the program's name."""
    yield f".Cm {command['name']}"
    instead = False
    for option in command.get("options", []):
        value = f" Ar {option['value']}" if "value" in option else ""
        if option.get("instead"):
            instead = f"Fl Fl {option['name'][2:]}{value}"
        else:
            many = " ..." if option.get("many") else ""
            yield f".Op Fl Fl {option['name'][2:]}{value}{many}"
    for number, takes in enumerate(command["takes"]):
        many = " ..." if takes.get("many") else ""
        if instead and not number:
            yield f".Brq Ar {takes['name']} | {instead}"
        else:
            yield f".{'Op ' if 'with' in takes else ''}Ar {takes['name']}{many}"


def head_of(name, section, about):
    """The beginning of a man page."""
    yield f'.\\" {MADE}'
    yield f".Dd {PROGRAMS['date']}"
    yield f".Dt {name.upper()} {section}"
    yield ".Os"
    yield from [".Sh NAME", f".Nm {name}", f".Nd {about}"]


def end_of(name):
    """The end of a man page: the other pages, and of which versions this one is."""
    others = [(1, program["name"]) for program in PROGRAMS["program"]] + [(5, page["name"]) for page in PROGRAMS["page"]]
    yield ".Sh SEE ALSO"
    yield " ,\n".join(f".Xr {other} {section}" for section, other in sorted(others) if other != name)
    yield ".Sh STANDARDS"
    yield "The terminal is that of MIL-STD-1553B with Notice 2."
    number, canonical = version()
    yield f"This page is for rt1553 {number}, which writes canonical text of version {canonical}."


def page_of(program):
    """The man page of a program."""
    name = program["name"]
    yield from head_of(name, 1, program["about"])
    yield ".Sh SYNOPSIS"
    if program["alone"]:
        yield ".Nm"
    for command in program["command"]:
        yield ".Nm"
        yield from synopsis_of(command)
    if not program["alone"]:
        yield from [".Nm", ".Fl Fl help", ".Nm", ".Fl Fl version"]
    yield ".Sh DESCRIPTION"
    yield from paragraphs(program["text"])
    width = max((command["name"] for command in program["command"]), key=len)
    yield f".Bl -tag -width {width}"
    for command in program["command"]:
        yield f".It Cm {command['name']}"
        yield from paragraphs(command["text"])
        for option in command.get("options", []):
            value = f" Ar {option['value']}" if "value" in option else ""
            yield ".Pp"
            yield f".Fl Fl {option['name'][2:]}{value} :"
            values = f" ({', '.join(option['values'])})" if "values" in option else ""
            yield from map(escaped, textwrap.wrap(f"{option['help']}{values}.", 78, break_on_hyphens=False))
    yield ".El"
    yield ".Pp"
    yield from paragraphs(program["after"])
    yield from [".Sh EXIT STATUS", ".Bl -tag -width 1n -compact"]
    for status, text in enumerate(program["statuses"]):
        yield f".It {status}"
        yield from lines_of(text + ".")
    yield from [".El", ".Sh EXAMPLES"]
    for number, example in enumerate(program["example"]):
        if number:
            yield ".Pp"
        yield from lines_of(example["text"])
        yield ".Bd -literal -offset indent"
        yield from (typed(line) for line in [f"$ {example['command']}", *example["prints"].splitlines()])
        yield ".Ed"
    yield from end_of(name)


# --- man pages of Markdown ---


def title_of(text):
    """A heading. A word of two letters isn't to be taken for a macro."""
    return re.sub(r"\b([A-Z][a-z])\b", r"\\&\1", text.replace("`", ""))


def cells_of(row):
    """The cells of a row of a table."""
    return [cell.strip().replace("\\|", "|") for cell in re.split(r"(?<!\\)\|", row)[1:-1]]


def table_of(rows):
    """A table as a list: the first cell of each row with the others behind it, which have their headings if there are several."""
    heads, _, *rows = map(cells_of, rows)
    yield ".Bl -tag -width Ds"
    for first, *others in rows:
        yield from [".It Xo", *lines_of(first), ".Xc"]
        filled = [(head, cell) for head, cell in zip(heads[1:], others) if cell]
        for number, (head, cell) in enumerate(filled):
            if number:
                yield ".br"
            yield from paragraph_of(cell if len(heads) == 2 else f"{head}: {cell}")
    yield ".El"


def list_of(lines):
    """A list, with numbers or without."""
    yield ".Bl -enum" if lines[0][0].isdigit() else ".Bl -bullet"
    for item in re.split(r"^(?:- |\d+\. )", "\n".join(lines), flags=re.MULTILINE)[1:]:
        yield ".It"
        yield from paragraph_of(item)
    yield ".El"


def literal_of(lines):
    """What is typed or printed, line by line."""
    yield from [".Bd -literal -offset indent", *map(typed, lines), ".Ed"]


def blocks_of(text):
    """The blocks of a page in Markdown: the kind of each, and its lines."""
    kinds = {"#": "heading", "!": "image", "|": "table", "- ": "list", "1. ": "list", "    ": "literal"}
    # what stands between fences is indented too
    text = re.sub(r"^```\w*\n(.*?)^```$", lambda found: textwrap.indent(found[1], "    "), text, flags=re.MULTILINE | re.DOTALL)
    block = []
    for line in [*text.split("\n"), "", "end"]:
        is_code = bool(block) and block[0].startswith("    ")
        if block and (line[:4].strip() if is_code else not line):
            yield next((kind for start, kind in kinds.items() if block[0].startswith(start)), "text"), block
            block = []
        if line or block:
            block.append(line)


def page_of_markdown(page):
    """The man page of section 5 that a page of docs/ makes. The sections in `without` are for readers of the code."""
    yield from head_of(page["name"], 5, page["about"])
    yield ".Sh DESCRIPTION"
    skipped, before = False, "heading"
    for kind, lines in blocks_of((TOP / page["source"]).read_text()):
        if kind == "heading":
            marks, title = lines[0].split(" ", 1)
            skipped = title in page["without"] or (skipped and marks == "###")
        if skipped or kind == "image" or lines[0].startswith("# "):
            continue
        if kind == "text" and before != "heading":
            yield ".Pp"
        match kind:
            case "heading":
                yield f".Ss {title_of(title)}" if marks == "###" else f".Sh {title_of(title).upper()}"
            case "table":
                yield from table_of(lines)
            case "list":
                yield from list_of(lines)
            case "literal":
                yield from literal_of(textwrap.dedent("\n".join(lines)).rstrip("\n").split("\n"))
            case _:
                yield from paragraph_of("\n".join(lines))
        before = kind
    yield from end_of(page["name"])


# --- completions ---


def flags_of(command):
    """The options of a command."""
    return [option["name"] for option in command.get("options", [])]


def about_of(command):
    """What a command does, in a few words: those of the program's own help, else the first sentence of its text."""
    return command.get("about", re.sub("[`.]", "", command["text"].split(". ")[0]))


def bash_files(kind):
    """The files and folders that bash completes."""
    return "; ".join([*(f"compgen -f -X '!*.{ending}' -- \"$now\"" for ending in ENDINGS[kind]), 'compgen -d -- "$now"'])


def bash_of(program):
    """The completion of bash."""
    name = program["name"]
    function = f"_{name.replace('-', '_')}"
    first = [command["name"] for command in program["command"]] + ([] if program["alone"] else ["--help", "--version"])
    yield f"# completion of {name} in bash, {MADE}"
    yield f"{function}() {{"
    yield "    local now=${COMP_WORDS[COMP_CWORD]} before=${COMP_WORDS[COMP_CWORD - 1]} flags='' kinds=() many='' count=0 index kind"
    yield "    COMPREPLY=()"
    yield "    if ((COMP_CWORD == 1)); then"
    yield f"        mapfile -t COMPREPLY < <(compgen -W '{' '.join(first)}' -- \"$now\")"
    yield "        return"
    yield "    fi"
    yield "    case ${COMP_WORDS[1]}:$before in"
    for command in program["command"]:
        for option in command.get("options", []):
            if "values" in option:
                yield f"        {command['name']}:{option['name']}) mapfile -t COMPREPLY < <(compgen -W '{' '.join(option['values'])}' -- \"$now\"); return ;;"
            elif option.get("kind") in ("number", "date"):
                yield f"        {command['name']}:{option['name']}) return ;;"
            elif "value" in option:
                yield f"        {command['name']}:{option['name']}) mapfile -t COMPREPLY < <({bash_files(option['kind'])}); return ;;"
    yield "    esac"
    yield "    case ${COMP_WORDS[1]} in"
    for command in program["command"]:
        kinds = " ".join(takes["kind"] for takes in command["takes"])
        many = next((takes["kind"] for takes in command["takes"] if takes.get("many")), "")
        flags = " ".join(flags_of(command) + ([] if program["alone"] else ["--help"]))
        yield f"        {command['name']}) flags='{flags}' kinds=({kinds}) many='{many}' ;;"
    yield "    esac"
    yield "    # how many files stand before this one"
    yield "    for ((index = 2; index < COMP_CWORD; index++)); do"
    yield "        case ${COMP_WORDS[1]}:${COMP_WORDS[index]} in"
    for command in program["command"]:
        for option in command.get("options", []):
            if option.get("instead"):
                yield f"            {command['name']}:{option['name']}) kinds=(\"${{kinds[@]:1}}\") index=$((index + 1)) ;;"
            elif "value" in option:
                yield f"            {command['name']}:{option['name']}) index=$((index + 1)) ;;"
    yield "            *:-*) ;;"
    yield "            *) count=$((count + 1)) ;;"
    yield "        esac"
    yield "    done"
    yield "    kind=${kinds[count]:-$many}"
    yield "    if [[ $now == -* ]]; then"
    yield "        mapfile -t COMPREPLY < <(compgen -W \"$flags\" -- \"$now\")"
    yield "    else"
    yield "        case $kind in"
    for kind in ("profile", "script"):
        yield f"            {kind}) mapfile -t COMPREPLY < <({bash_files(kind)}) ;;"
    yield "        esac"
    yield "    fi"
    yield "}"
    yield f"complete -o filenames -F {function} {name}"


def zsh_files(kind):
    """The files that zsh completes."""
    if not ENDINGS[kind]:
        return "_files -/"
    return f'_files -g "*.({"|".join(ENDINGS[kind])})(-.)"'


def zsh_text(text):
    """A text inside a specification of zsh."""
    return re.sub(r"([\[\]:\\])", r"\\\1", text).replace("'", "'\\''")


def zsh_specs(command):
    """What zsh's `_arguments` is told of a command."""
    instead = next((option["name"] for option in command.get("options", []) if option.get("instead")), None)
    for option in command.get("options", []):
        value = ""
        if "values" in option:
            value = f":{option['value']}:({' '.join(option['values'])})"
        elif option.get("kind") in ("number", "date"):
            value = f":{option['value']}: "
        elif "value" in option:
            value = f":{option['value']}:{zsh_files(option['kind'])}"
        but = "(1)" if option.get("instead") else "*" if option.get("many") else ""
        yield f"'{but}{option['name']}[{zsh_text(option['help'])}]{value}'"
    for number, takes in enumerate(command["takes"], 1):
        but = f"({instead})" if instead and number == 1 else ""
        place = "*" if takes.get("many") else f"{but}{number}"
        optional = ":" if "with" in takes else ""
        yield f"'{place}:{optional}{takes['name']}:{zsh_files(takes['kind'])}'"


def zsh_of(program):
    """The completion of zsh."""
    name = program["name"]
    function = f"_{name.replace('-', '_')}"
    yield f"#compdef {name}"
    yield f"# completion of {name} in zsh, {MADE}"
    yield f"{function}() {{"
    yield "    local -a commands"
    yield "    commands=("
    for command in program["command"]:
        yield f"        '{command['name']}:{zsh_text(about_of(command))}'"
    yield "    )"
    yield "    if ((CURRENT == 2)); then"
    if not program["alone"]:
        yield "        if [[ $words[2] == -* ]]; then _arguments '--help[lists the commands]' '--version[prints the versions]'; return; fi"
    yield "        _describe -t commands command commands"
    yield "        return"
    yield "    fi"
    yield "    local command=$words[2]"
    yield "    shift words"
    yield "    ((CURRENT--))"
    yield "    case $command in"
    for command in program["command"]:
        specs = [] if program["alone"] else ["'--help[prints what the command takes]'"]
        yield f"        {command['name']}) _arguments {' '.join([*specs, *zsh_specs(command)])} ;;"
    yield "    esac"
    yield "}"
    yield f"{function} \"$@\""


def fish_text(text):
    """A text between quotes of fish."""
    return "'" + text.replace("\\", "\\\\").replace("'", "\\'") + "'"


def fish_of(program):
    """The completion of fish."""
    name = program["name"]
    yield f"# completion of {name} in fish, {MADE}"
    yield f"complete -c {name} -f"
    if not program["alone"]:
        yield f"complete -c {name} -n __fish_use_subcommand -l help -d 'lists the commands'"
        yield f"complete -c {name} -n __fish_use_subcommand -l version -d 'prints the versions'"
    for command in program["command"]:
        yield f"complete -c {name} -n __fish_use_subcommand -a {command['name']} -d {fish_text(about_of(command))}"
        seen = f"-n '__fish_seen_subcommand_from {command['name']}'"
        for option in command.get("options", []):
            value = ""
            if "values" in option:
                value = f" -x -a '{' '.join(option['values'])}'"
            elif option.get("kind") in ("number", "date"):
                value = " -x"
            elif "value" in option:
                value = " -r -F" if ENDINGS[option["kind"]] else " -x -a '(__fish_complete_directories)'"
            yield f"complete -c {name} {seen} -l {option['name'][2:]}{value} -d {fish_text(option['help'])}"
        if command["takes"]:
            yield f"complete -c {name} {seen} -F"


# --- the commands of rt1553-tool, in Rust ---


def rust_text(text):
    """A text as a literal."""
    return '"' + text.replace("\\", "\\\\").replace('"', '\\"').replace("\n", "\\n") + '"'


def occurrence_of(argument, instead):
    """How an argument is given, beside the option that stands in the place of the first, if there is one."""
    if argument["name"].startswith("--"):
        if "values" in argument:
            return f"OneOf({rust_text(argument['values'][0])}, &{values_name(argument)})"
        value = "Needed" if argument.get("needed") else "Values" if argument.get("many") else "Value"
        return value if "value" in argument else "Flag"
    if "with" in argument:
        return f"OnceWith({rust_text(argument['with'][2:])})"
    often = "Often" if argument.get("many") else "Once"
    return f"{often}Or({rust_text(instead)})" if instead else often


def values_name(option):
    """The name of the constant with the values of an option."""
    return "_OR_".join(it.upper() for it in option["values"])


def rust_argument(argument, instead):
    """The lines of an argument."""
    identity = argument["name"][2:] if argument["name"].startswith("--") else IDENTITIES[argument["name"]]
    value = argument.get("value", "") if argument["name"].startswith("--") else argument["name"]
    yield f"    id: {rust_text(identity)},"
    yield f"    given: Occurrence::{occurrence_of(argument, instead)},"
    yield f"    value: {rust_text(value)},"
    yield f"    help: {rust_text(argument['help'])},"


def arguments_of(command):
    """The arguments of a command, each as its lines."""
    options = command.get("options", [])
    instead = next((it["name"][2:] for it in options if it.get("instead")), None)
    return [tuple(rust_argument(it, instead)) for it in [*command["takes"], *options]]


def shared_of(commands):
    """The arguments that several commands take alike, with the names of their constants."""
    counts = collections.Counter(it for command in commands for it in arguments_of(command))
    shared = {}
    for argument, count in counts.most_common():
        name = re.search('"(.*)"', argument[0])[1].upper()
        if count > 1 and name not in shared.values():
            shared[argument] = name
    return shared


def rust_arguments(command, shared):
    """The lines of the constant with the arguments of a command."""
    rows = arguments_of(command)
    head = f"const {constant_of(command)}: [Argument; {len(rows)}] = ["
    short = f"{head}{', '.join(shared.get(it, '') for it in rows)}];"
    if all(it in shared for it in rows) and len(short) <= 100:
        return [short]
    if len(rows) == 1:
        return [f"{head}Argument {{", *rows[0], "}];"]
    entries = [[f"{shared[it]},"] if it in shared else ["Argument {", *it, "},"] for it in rows]
    return [head, *(f"    {line}" for entry in entries for line in entry), "];"]


def constant_of(command):
    """The name of the constant with the arguments of a command, which a constant of one argument may have, too."""
    return f"OF_{command['name'].upper().replace('-', '_')}"


def rust_command(command):
    """The lines of a command."""
    arguments = constant_of(command) if arguments_of(command) else "[]"
    lines = command["lines"].strip("\n") + "\n\n" if "lines" in command else ""
    yield "    CommandRow {"
    yield f"        name: {rust_text(command['name'])},"
    yield f"        group: CommandGroup::{command['heading'].split()[0]},"
    yield f"        about: {rust_text(command['about'])},"
    yield f"        after: {rust_text(('Lines:' + chr(10) + lines if lines else '') + 'Example: ' + command['example'])},"
    yield f"        arguments: &{arguments},"
    yield "    },"


def rust_of(program):
    """The source of the commands of a program."""
    commands = program["command"]
    yield f"//! The commands of `{program['name']}`, {MADE}."
    yield "use crate::table::{Argument, CommandGroup, CommandRow, Occurrence};"
    for option in {values_name(it): it for command in commands for it in command.get("options", []) if "values" in it}.values():
        yield ""
        yield f"const {values_name(option)}: [&str; {len(option['values'])}] = [{', '.join(map(rust_text, option['values']))}];"
    shared = shared_of(commands)
    for argument, name in shared.items():
        yield from ["", f"const {name}: Argument = Argument {{", *argument, "};"]
    for command in commands:
        if arguments_of(command):
            yield from ["", *rust_arguments(command, shared)]
    yield ""
    yield "/// The commands; under each heading of the help they stand in this order."
    yield f"pub const COMMANDS: [CommandRow; {len(commands)}] = ["
    for command in commands:
        yield from rust_command(command)
    yield "];"


# --- the files ---


def made():
    """Each file that is made, with its text."""
    for page in PROGRAMS["page"]:
        yield TOP / f"manual/{page['name']}.5", "\n".join(page_of_markdown(page)) + "\n"
    for program in PROGRAMS["program"]:
        name = program["name"]
        for ending, lines in ((".1", page_of(program)), (".bash", bash_of(program)), (".zsh", zsh_of(program)), (".fish", fish_of(program))):
            yield TOP / f"manual/{name}{ending}", "\n".join(lines) + "\n"
        if not program["alone"]:
            yield TOP / "crates/rt1553_tool_args/src/commands.rt", "\n".join(rust_of(program)) + "\n"


def main(words):
    match words:
        case ["write"]:
            for path, text in made():
                path.write_text(text)
        case ["version"]:
            print(version()[0])
        case _:
            return __doc__
    return 0


PROGRAMS = tomllib.loads(WORDS.read_text())

if __name__ == "__main__":
    sys.exit(main(sys.argv[1:]))
