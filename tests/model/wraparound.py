"""Writes the cases of tests/vectors/wraparound.txt by the model of the canonical text, apart from the program.

    wraparound.py FILE

NAME.toml is a profile, NAME.rt1553 its canonical text, and NAME.first.rt1553 the text of version 1 that means the same,
where there is one. compare-NAME is a case of two profiles that differ in their wraparound subaddress alone, or don't differ
in what can be reached.
"""

import itertools
import pathlib
import sys
import tomllib

sys.path.append(str(pathlib.Path(__file__).resolve().parent.parent))

import vector_tables  # noqa: E402
from canonical import Fault, compared, reached_of, text_of  # noqa: E402


def rule(direction, subaddresses, counts, to="own"):
    return (
        f'[[rule]]\nto = "{to}"\ndirection = "{direction}"\nsubaddresses = "{subaddresses}"\ncounts = "{counts}"\n'
    )


def initial(subaddress, words):
    return f"[[initial]]\nsubaddress = {subaddress}\nwords = {words}\n"


HEARD = rule("receive", 7, "3, 5", "broadcast") + rule("transmit", 7, "2, 32") + initial(7, [0x1234, 1])

# what stands behind the line of wraparound, and the values of that line; None is no line
PROFILES = {
    "smallest": ("", [None, "7"]),
    "largest": (
        'broadcast = true\n[[mode]]\nto = "both"\ncodes = "0-31"\n' + rule("both", "1-30", "1-32", "both"),
        [None, "1"],
    ),
    # words can be received at 7 and transmitted from it, and nowhere else
    "seven": (rule("both", 7, 1), ["7", "30", "false"]),
    # the same of 7 and 8, and of the first and the last two
    "seven_eight": (rule("both", "7, 8", 1), ["7", "8", "false"]),
    "ends": (
        rule("both", "1, 29, 30", "32") + initial(1, [0xFFFF]) + initial(29, [0x00FF]) + initial(30, [0x8001]),
        ["1", "29", "true", "false"],
    ),
    # one direction is not legal at 7
    "no_transmit": (rule("receive", 7, 1) + rule("both", 30, 1), ["7", "30", "false"]),
    "no_receive": (rule("transmit", 7, 1) + rule("both", 30, 1), ["7", "false"]),
    # words come to 7 by broadcast alone
    "heard": ("broadcast = true\n" + HEARD, ["7", "30", "false"]),
    "unheard": ("broadcast = false\n" + HEARD, ["7", "false"]),
    # by broadcast and by the own address
    "both_ways": ("broadcast = true\n" + rule("receive", 7, "6-9") + HEARD, ["7", "false"]),
}


def profile_text(body, wraparound):
    line = f"wraparound = {wraparound}\n" if wraparound else ""
    return f"address = 5\n{line}{body}"


def texts_of(name, profile):
    """A profile and its canonical texts, by the names of their files."""
    reached = reached_of(tomllib.loads(profile))
    texts = {f"{name}.toml": profile, f"{name}.rt1553": text_of(reached)}
    try:
        return {**texts, f"{name}.first.rt1553": text_of(reached, version=1)}
    except Fault:
        return texts


def comparison(name, *profiles):
    """The block of a case that compares two profiles, which are the texts of two files."""
    names, texts = zip(*profiles)
    script = compared(*(reached_of(tomllib.loads(it)) for it in texts))
    lines = [" ".join(("words: compare", *names)), f"status: {int(script != ['same'])}"]
    return vector_tables.block(name, {"stdout": "".join(f"{line}\n" for line in script)}, lines)


def blocks():
    """The profiles of each shape, and its cases."""
    for shape, (body, values) in PROFILES.items():
        profiles = {value or "default": profile_text(body, value) for value in values}
        for value, text in profiles.items():
            yield vector_tables.block(f"{shape}-{value}", texts_of(f"{shape}-{value}", text))
        for p, q in itertools.permutations(profiles, 2):
            yield comparison(f"compare-{shape}-{p}-{q}", *((f"{shape}-{it}.toml", profiles[it]) for it in (p, q)))


vector_tables.write(pathlib.Path(sys.argv[1]), blocks())
