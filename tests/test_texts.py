"""Texts with known answers: profiles, canonical texts, scripts and command lines.

A text is refused by its first fault (tests/texts/refused.txt, ranges.txt, refused_lines.txt), it is accepted (accepted.txt), it has
these canonical lines (canonical.txt), another text means the same terminal or another one, which a script worked out by hand shows
(differing.txt), or a script has this transcript (tests/rows, and the model of the rules in tests/model). Each function of `PARTS`
gives rows.
"""

import functools
import tomllib

import canonical as canonical_model
import play
import pytest
import random_scripts
import rows as worked
import rules
from known_texts import ASK, FULL, PLAIN, SUBADDRESSES, USAGE, canonical, changed, wrapping, zero_words
from programs import TOP, Row, check_row, run, write_files
from vector_tables import unescaped

TEXTS = TOP / "tests/texts"
NOT_TOML = "profile: not TOML"


def refused(name, text, fault):
    """A text that is refused."""
    return Row(name, "check p", 2, "", f"{fault}\n", files={"p": text})


def accepted(name, text):
    """A text that is accepted."""
    return Row(name, "check p", 0, "ok\n", files={"p": text})


def written(name, text, canonical):
    """A text and its canonical text."""
    return Row(name, "canon p", 0, canonical, files={"p": text})


def same(name, one, other):
    """Two texts that mean the same terminal."""
    return Row(name, "compare p q", 0, "same\n", files={"p": one, "q": other})


def differ(name, one, other, script):
    """Two texts that mean different terminals, and the script that shows it, `; ` between its lines."""
    return Row(name, "compare p q", 1, script.replace("; ", "\n") + "\n", files={"p": one, "q": other})


def played(name, profile, script, transcript, fault=""):
    """A script with its transcript, and the fault that ends it, if one does."""
    return Row(name, "run p q", 2 if fault else 0, transcript, fault and f"{fault}\n", files={"p": profile, "q": script})


def blocks(file):
    """The blocks of a file of rows, between empty lines."""
    return (TEXTS / file).read_text(encoding="ascii").rstrip("\n").split("\n\n")


# Profiles


def refused_profiles():
    """Profiles, and what no file of lines can show, each with its first fault."""
    for block in blocks("refused.txt"):
        fault, _, text = block.partition("\n")
        yield refused(f"refused: {text}", text, fault)
    yield refused("an empty text", "", "profile: root: address is missing")
    for text in (b"address = 5 # \xff", b"\xff\xfeaddress = 5", b'address = 5\nspeed = "\xc3\x28"', b"address = 5\n\0"):
        yield refused(f"bytes {text}", text, NOT_TOML)


def arrays():
    """Arrays of 256 and 257 items: a longer one is refused before any of its items."""
    for key, item in (("rule", '{direction = "both", subaddresses = 1}'), ("mode", "{codes = 0}"), ("initial", "{subaddress = 1, words = [7]}")):
        text = "address = 5\n{} = [{}]"
        yield accepted(f"256 of {key}", text.format(key, f"{item}," * 256))
        for it in (item, "0"):
            yield refused(f"257 of {key}: {it}", text.format(key, f"{it}," * 257), f"profile: root: {key} has too many items")
        yield refused(f"256 of {key} that are none", text.format(key, "0," * 256), f"profile: {key} 1: {key} has the wrong kind")


def ranges():
    """Texts of ranges, with the set that they name, the least number first, or with the fault."""
    for line in (TEXTS / "ranges.txt").read_text(encoding="ascii").splitlines():
        key, text, answer = line.split("|")
        name, receive = f"ranges of {key}: {text}", 'address = 5\nrule = [{{direction = "receive", {}}}]'
        if key == "codes":
            profile = f'address = 5\nmode = [{{codes = "{text}"}}]'
        elif key == "counts":
            profile = receive.format(f'subaddresses = 1, counts = "{text}"')
        else:
            profile = receive.format(f'subaddresses = "{text}", counts = 1')
        if not answer.isalnum():
            yield refused(name, profile, f"profile: {'mode' if key == 'codes' else 'rule'} 1: {key} is {answer}")
            continue
        mask = int(answer, 16)
        masks = {1: mask} if key == "counts" else {s: mask >> (s - 1) & 1 for s in SUBADDRESSES}
        yield written(name, profile, canonical(own_receive=masks))


def accepted_profiles():
    """Each key at the ends of its range, and each form that TOML gives a value."""
    for text in blocks("accepted.txt"):
        yield accepted(f"accepted: {text}", text)
    yield accepted("a byte order mark", b"\xef\xbb\xbfaddress = 5")
    yield accepted("ends of lines of two bytes", b"address = 5\r\nbroadcast = true\r\n")


def many_rules():
    """Rules for all commands, subaddresses and counts, the first legal, the second not, and so on: the last says."""
    for count, mask in ((0, 0), (1, FULL), (255, FULL), (256, 0)):
        rules = "".join(
            f'[[rule]]\nto = "both"\ndirection = "both"\nsubaddresses = "1-30"\nlegal = {str(k % 2 == 0).lower()}\n' for k in range(count)
        )
        yield written(f"{count} rules", "address = 5\n" + rules, canonical(own_receive=mask, own_transmit=mask))


def spellings():
    """Two ways to say the same."""
    short = 'address = 5\nrule = [{direction = "receive", subaddresses = "1-3", counts = 2}]'
    long = """address = 5
[[rule]]
direction = "receive"
subaddresses = 1
[[rule]]
direction = "receive"
subaddresses = 1
counts = "1,3-32"
legal = false
[[rule]]
direction = "receive"
subaddresses = "2,3"
counts = 2
[[initial]]
subaddress = 7
words = [1, 2]"""
    yield same("two spellings", short, long)
    another = """address = 0x05
[[rule]]
direction = "receive"
subaddresses = 1
counts = "1-32"
[[rule]]
direction = "receive"
subaddresses = 1
counts = "1, 3-32"
legal = false
[[rule]]
direction = "receive"
subaddresses = " 2 , 3"
counts = "02"
[[initial]]
subaddress = 7
words = [1, 2]
"""
    for name, text in (("the one spelling", SPELT), ("the other spelling", another)):
        yield written(name, text, SPELT_TEXT)
    for one, other in (
        ("address = 5", "address = 0x05 # five"),
        # nothing of 30 is legal, so that wraparound can't be reached
        ("address = 5", "address = 5\nwraparound = false"),
        ("address = 5\nvector = 7", "address = 5\nbit = 8\naccept_bus_control = true"),
    ):
        yield same(f"the same: {other}", one, other)


def profile_at_30(legal, codes=(), **keys):
    """A profile in which commands of a word at subaddress 30 are legal as said, and these own mode codes."""
    text = "address = 5\n" + "".join(f"{key} = {value}\n" for key, value in keys.items())
    for to, direction in (("own", "receive"), ("own", "transmit"), ("broadcast", "receive")):
        if f"{to} {direction}" in legal:
            text += f'[[rule]]\nto = "{to}"\ndirection = "{direction}"\nsubaddresses = 30\ncounts = 1\n'
    return text + "".join(f"[[mode]]\ncodes = {it}\n" for it in codes)


def parts_that_count():
    """Acceptance, the vector word, the BIT word and wraparound count where a legal command shows them."""
    own, everything = ("own receive", "own transmit"), ("own receive", "own transmit", "broadcast receive")
    for name, key, value, codes, legal, script in (
        ("acceptance without code 0", "accept_bus_control", "true", (), everything, ""),
        ("acceptance", "accept_bus_control", "true", (0,), (), "A c 2c00; A gap; slot"),
        ("vector word without code 16", "vector", 1, (19,), everything, ""),
        ("vector word", "vector", 1, (16,), (), "A c 2c10; A gap; slot; slot"),
        ("BIT word without code 19", "bit", 1, (16,), everything, ""),
        ("BIT word", "bit", 1, (19,), (), "A c 2c13; A gap; slot; slot"),
        ("wraparound, no receiving", "wraparound", "false", (), ("own transmit",), ""),
        ("wraparound, no transmitting", "wraparound", "false", (), ("own receive", "broadcast receive"), ""),
        ("wraparound, broadcast unheard", "wraparound", "false", (), ("own transmit", "broadcast receive"), ""),
        ("wraparound", "wraparound", "false", (), own, "A c 2bc1; A d ffff; A gap; slot; A c 2fc1; A gap; slot; slot"),
    ):
        pair = profile_at_30(legal, codes, **{key: value}), profile_at_30(legal, codes)
        yield differ(name, *pair, script) if script else same(name, *pair)
    heard = ("own transmit", "broadcast receive")
    pair = (profile_at_30(heard, broadcast="true", wraparound=it) for it in ("false", "true"))
    yield differ("wraparound, broadcast", *pair, "A c fbc1; A d ffff; A gap; A c 2fc1; A gap; slot; slot")


# Canonical texts


FIRST = canonical(1, own_receive={7: 1, 30: 1}, own_transmit={7: 1, 30: 1}, end="wraparound 0\ninitial 07 0011\ninitial 30 0022\n")
EVERY_LINE = canonical(
    own_receive={7: 1}, own_transmit={7: 0x12}, heard={7: 1}, own_mode=0x000F01FF, heard_mode=0x000201FA,
    end="accept 1\nvector beef\nbit 0a01\nwraparound 07\ninitial 07 0001 0002 0003 0004 0005\n",
)  # fmt: skip


WHOLE_TEXTS = {"the plain text": PLAIN, "a text of version 1": FIRST, "every line": EVERY_LINE}


def of_length(text, length):
    """A canonical text, which has this length."""
    assert len(text) == length
    return text


SPELT = 'address = 5\n[[rule]]\ndirection = "receive"\nsubaddresses = "1-3"\ncounts = 2\n'
SPELT_TEXT = of_length(canonical(own_receive={1: 2, 2: 2, 3: 2}), 1520)
BY_BROADCAST = canonical(own_transmit={30: 1}, heard={30: 1}, end="wraparound 30\ninitial 30 0000\n")
LARGEST = canonical(own_receive=FULL, own_transmit=FULL, heard=FULL, own_mode=0x000F01FF, heard_mode=0x000201FA, end="")
LARGEST += "accept 0\nvector 0000\nbit 0000\n" + zero_words(FULL)


def fixed(name, text):
    """A text that is its own canonical text."""
    return written(name, text, text)


def damaged(name, text, line):
    """A text that is refused at a line."""
    return refused(name, text, f"canonical text: line {line}")


def canonical_texts():
    """Texts that are their own canonical texts: the least for each address, the largest, and what makes a line stand there."""
    for address in range(31):
        yield fixed(f"address {address}", canonical(address=address))
    yield fixed("every kind of line", EVERY_LINE)
    assert (LARGEST.count("\n"), len(LARGEST)) == (129, 7618) and (PLAIN.count("\n"), len(PLAIN)) == (64, 1520)
    yield fixed("the largest", LARGEST)
    yield fixed("every count to the own address alone", canonical(own_receive=FULL, own_transmit=FULL))
    yield fixed("wraparound that only broadcasts reach", BY_BROADCAST)
    yield fixed("words of mode codes", changed(64, "own-mode 00090135", "accept 1\nvector beef\nbit 0a01\n"))
    yield fixed("initial words", changed(40, "own-transmit 07 00000012", "initial 07 0001 0002 0003 0004 0005\n"))


def texts_of_profiles():
    """Profiles with their whole canonical texts, which have these lengths, and their texts of version 1."""
    for address in range(31):
        least = of_length(canonical(address=address), 1520)
        yield written(f"the least of address {address}", f"address = {address}", least)
    everything = 'to = "both"\ndirection = "both"\nsubaddresses = "1-30"\n[[mode]]\nto = "both"\ncodes = "0-31"\n'
    largest = f"address = 5\nbroadcast = true\n[[rule]]\n{everything}"
    heard = 'to = "broadcast"\ndirection = "receive"\nsubaddresses = 30\ncounts = 1\n'
    sent = 'direction = "transmit"\nsubaddresses = 30\ncounts = 1\n'
    by_broadcast = f"address = 5\nbroadcast = true\n[[rule]]\n{heard}[[rule]]\n{sent}"
    for name, profile, text in (
        ("the largest", largest, of_length(LARGEST, 7618)),
        ("words of 30 by broadcast alone", by_broadcast, of_length(BY_BROADCAST, 2474)),
        ("subaddresses 1 to 3", SPELT, SPELT_TEXT),
    ):
        first = text.replace("rt1553 2\n", "rt1553 1\n").replace("\nwraparound 30\n", "\nwraparound 1\n")
        yield written(f"of its profile: {name}", profile, text)
        yield written(f"of version 1: {name}", first, text)
    yield refused("no version 3", "rt1553 3\n", NOT_TOML)
    at_seven = 'address = 5\nwraparound = 7\n[[rule]]\ndirection = "both"\nsubaddresses = 7\ncounts = 1\n'
    text = of_length(wrapping(2, [7], "wraparound 07\ninitial 07 0000\n"), 1550)
    yield written("a chosen wraparound subaddress", at_seven, text)


def one_line_wrong():
    """Lines in place of others, and what is behind the end then."""
    for number, line, after, wrong in (
        (1, "rt1553 3", "", None),
        (1, "rt1553 0", "", None),
        (1, "rt1553 2\r", "", None),
        (2, "address 31", "", 2),
        (2, "address 5", "", 2),
        (2, "address  5", "", 2),
        (3, "broadcast 2", "", 3),
        (3, "broadcast 1", "", 64),
        (4, "own-receive 01 0000000A", "", 4),
        (4, "own-receive 02 00000000", "", 4),
        (64, "own-mode 00000034", "", 64),
        (64, "own-mode 00200134", "", 64),
        (64, "own-mode 00000135", "", 65),
        (64, "own-mode 00010134", "", 65),
        (64, "own-mode 00080134", "vector 0000\n", 65),
        (40, "own-transmit 07 00000012", "", 65),
        (40, "own-transmit 07 00000012", "initial 07 0000 0000 0000 0000\n", 65),
        (40, "own-transmit 07 00000012", "initial 07 0001 0002 0003 0004 0005 0006\n", 65),
        (40, "own-transmit 07 00000012", "initial 08 0001 0002 0003 0004 0005\n", 65),
        (40, "own-transmit 07 00000012", "initial 07 0001 0002 0003 0004 000A\n", 65),
    ):
        name, text = f"line {number}: {line!r} {after!r}", changed(number, line, after)
        # a text whose first line is not that of a canonical text is read as a profile
        yield damaged(name, text, wrong) if wrong else refused(name, text, NOT_TOML)


def after_the_end():
    """A line feed, a digit, a line that could have stood before, or the first line of a text, behind a whole text."""
    ends = ("\n", "0", "initial 30 0000\n", "wraparound 00\n", "rt1553 1\n", "rt1553 2\n", "vector 0000\n")
    for name, text in WHOLE_TEXTS.items():
        for end in ends:
            yield refused(f"{end!r} after {name}", text + end, "canonical text: bytes after the end")


def wraparound_lines():
    """The line of wraparound of both versions, where words can be received at one subaddress and sent from it."""
    for version, subaddress, line, is_right in (
        (2, 7, "wraparound 07\n", True),
        (2, 7, "wraparound 00\n", True),
        (2, 7, "wraparound 09\n", False),
        (2, 7, "wraparound 30\n", False),
        (2, 7, "wraparound 31\n", False),
        (2, 7, "wraparound 1\n", False),
        (2, 7, "", False),
        (2, 30, "wraparound 30\n", True),
        (2, 30, "wraparound 1\n", False),
        (2, 30, "wraparound 01\n", False),
        (1, 7, "", True),
        (1, 7, "wraparound 07\n", False),
        (1, 7, "wraparound 1\n", False),
        (1, 7, "wraparound 0\n", False),
        (1, 30, "wraparound 1\n", True),
        (1, 30, "wraparound 0\n", True),
        (1, 30, "wraparound 30\n", False),
        (1, 30, "wraparound 2\n", False),
        (1, 30, "", False),
    ):
        text = wrapping(version, [subaddress], f"{line}initial {subaddress:02} 0000\n")
        name = f"version {version}, {subaddress}: {line!r}"
        yield accepted(name, text) if is_right else damaged(name, text, 65)


def first_version():
    """Texts of version 1, and the same of version 2."""
    for subaddresses, first, second in (
        ((), "", ""),
        ((7,), "initial 07 0011\n", "wraparound 00\ninitial 07 0011\n"),
        ((30,), "wraparound 1\ninitial 30 0011\n", "wraparound 30\ninitial 30 0011\n"),
        ((7, 30), "wraparound 0\ninitial 07 0011\ninitial 30 0022\n", "wraparound 00\ninitial 07 0011\ninitial 30 0022\n"),
    ):
        yield written(f"version 1: {subaddresses}", wrapping(1, subaddresses, first), wrapping(2, subaddresses, second))
    yield refused("version 1: wraparound", wrapping(1, (), "wraparound 0\n"), "canonical text: bytes after the end")


# Comparisons


def shown_by_scripts():
    """Pairs of terminals, and the script that tells them apart, worked out by hand from the fields of the commands."""
    hears = canonical(heard=0)
    status, option = "A c 2c02; A gap; slot", "A c fc02; A gap; A c 2c02; A gap; slot"
    yield differ("address", PLAIN, canonical(address=6), status)
    yield differ("broadcast", hears, PLAIN, option)
    yield differ("broadcast, the other way round", PLAIN, hears, option)
    received = "A c 2862; A d 0000; A d 0000; A gap; slot"
    yield differ("receive", canonical(own_receive={3: 0x12}), canonical(own_receive={3: 0x04}), received)
    five = canonical(own_transmit={7: 0x10}, end="initial 07 0000 0000 0000 0000 0000\n")
    yield differ("transmit", PLAIN, five, "A c 2ce5; A gap; slot")
    yield differ("broadcast receive", canonical(heard={4: 1}), hears, "A c f881; A d 0000; A gap; " + status)
    yield differ("a mode code", canonical(own_mode=0x40134), PLAIN, "A c 2c12; A gap; slot")
    yield differ("a mode code with a word", canonical(own_mode=0x20134), PLAIN, "A c 2811; A d 0000; A gap; slot")
    for mask, word in ((0x10, "fc04"), (0x100, "fc08")):
        yield differ(f"broadcast code {word}", canonical(heard=0, heard_mode=mask), hears, f"A c {word}; A gap; {status}")
    yield differ("broadcast code 17", hears, canonical(heard=0, heard_mode=0x20000), "A c f811; A d 0000; A gap; " + status)
    both = canonical(own_receive={3: 2}, own_mode=0x40134)
    yield differ("the first of two", both, PLAIN, received)
    yield same("no difference", both, both)


def shown_by_words():
    """Pairs of terminals that send other words."""
    for name, own_mode, one, other, script in (
        ("acceptance", 0x135, "accept 1\n", "accept 0\n", "A c 2c00; A gap; slot"),
        ("vector word", 0x10134, "vector beef\n", "vector 0000\n", "A c 2c10; A gap; slot; slot"),
        ("BIT word", 0x80134, "bit 0a01\n", "bit 0a02\n", "A c 2c13; A gap; slot; slot"),
    ):
        yield differ(f"{name} sent", canonical(own_mode=own_mode, end=one), canonical(own_mode=own_mode, end=other), script)
    one, other = (canonical(own_transmit={7: 0x12}, end=f"initial 07 0001 0002 0003 0004 000{k}\n") for k in (5, 6))
    yield differ("an initial word", one, other, "A c 2ce5; A gap" + "; slot" * 6)


def shown_by_wraparound():
    """Pairs of terminals that differ in wraparound."""
    one, other = (wrapping(2, [30], f"wraparound {it}\ninitial 30 0000\n") for it in ("30", "00"))
    yield differ("wraparound of 30", one, other, "A c 2bc1; A d ffff; A gap; slot; A c 2fc1; A gap; slot; slot")
    one, other = (
        canonical(own_transmit={30: 8}, heard={30: 6}, end=f"wraparound {it}\ninitial 30 1234 0000 0000 0000\n") for it in ("00", "30")
    )
    script = "A c fbc2; A d edcb; A d 0000; A gap; A c 2fc4; A gap" + "; slot" * 5
    yield differ("wraparound that a broadcast shows", one, other, script)
    none, seven, eight = (wrapping(2, [7, 8], f"wraparound {it}\ninitial 07 0000\ninitial 08 00ff\n") for it in ("00", "07", "08"))
    at_seven = "A c 28e1; A d ffff; A gap; slot; A c 2ce1; A gap; slot; slot"
    at_eight = "A c 2901; A d ff00; A gap; slot; A c 2d01; A gap; slot; slot"
    for name, one, other, script in (
        ("7 and 8", seven, eight, at_seven),
        ("8 and 7", eight, seven, at_eight),
        ("none and 8", none, eight, at_eight),
        ("8 and none", eight, none, at_eight),
    ):
        yield differ(f"wraparound: {name}", one, other, script)
    one, other = (
        canonical(own_receive={30: 1 << 31}, own_transmit={30: 1 << 31}, end=f"wraparound {it}\ninitial 30{' 0000' * 32}\n") for it in ("30", "00")
    )
    # 70 events: 32 words are received, and 32 sent behind the status
    longest = "A c 2bc0; A d ffff" + "; A d 0000" * 31 + "; A gap; slot; A c 2fc0; A gap" + "; slot" * 33
    yield differ("the longest script", one, other, longest)


def transcript(profile, script):
    """The transcript of a script by the model of the rules."""
    terminal = rules.Terminal(play.setup_of(tomllib.loads(profile)))
    events = (event for _, event in play.events_of(script.encode()))
    return "".join(line + "\n" for line in play.transcript(terminal, events))


def shown_by_transcripts():
    """Pairs of profiles that differ in one thing, the script that shows it, of their canonical texts too, and its two
    transcripts."""
    for block in ("\n" + (TEXTS / "differing.txt").read_text(encoding="ascii")).split("\n== ")[1:]:
        head, other, script = block.split("\n--\n")
        name, one = head.split("\n", 1)
        script = script.rstrip("\n")
        texts = [canonical_model.text_of(canonical_model.reached_of(tomllib.loads(it))) for it in (one, other)]
        transcripts = [transcript(it, script) for it in (one, other)]
        assert transcripts[0] != transcripts[1], name
        yield differ(f"{name}: profiles", one, other, script)
        yield differ(f"{name}: canonical texts", *texts, script)
        for place, profile, text, answers in zip(("first", "second"), (one, other), texts, transcripts):
            yield written(f"{name}: canonical text of the {place}", profile, text)
            yield played(f"{name}: transcript of the {place}", profile, script, answers)


def refused_pair():
    """The first of two texts that are refused."""
    yield Row("two texts that are refused", "compare p q", 2, "", f"{NOT_TOML}\n", files={"p": "address", "q": "address = 31"})


# Scripts

EQUIPPED = worked.EVERYTHING.replace("0x00aa", "0x1234").replace("0x00bb", "0xabcd") + "wraparound = false\n"


def worked_rows():
    """Scripts that state their answers."""
    for row in worked.rows():
        yield played(row.name, row.profile, row.script, row.transcript())


def whole_scripts():
    """Scripts with comments, empty lines, capital digits, wrong parity and no last line feed."""
    busy = "flag busy 1\nB c 2c61\nB gap\nslot\nvector 0f0f\nflag busy 0\nB c 2c10\nB gap\nslot\nslot\n"
    for script, answers in (
        ("", ""),
        ("\n# a comment\n\n", ""),
        ("A c 2c02\nA gap\n", ""),
        (ASK, "A s 2800\n"),
        ("A c 2C02\nA gap\nslot", "A s 2800\n"),
        ("A c 2c02 0\nA gap\nslot\n", ""),
        (busy, "B s 2808\nB s 2800\nB d 0f0f\n"),
        ("A c 2c81\nA gap\nslot\nwrite 04 01 beef\n\nA gap\nslot\nslot\n", "A s 2800\nA d beef\n"),
    ):
        yield played(f"whole: {script!r}", EQUIPPED, script, answers)


def refused_scripts():
    """Scripts with a line that is refused: the answers to the lines before it are written."""
    long = "#" + "2345678901" * 6 + "23456\n"
    for script, fault, answers in (
        (ASK + "A x\n", "line 4", "A s 2800\n"),
        (ASK + "A x", "line 4", "A s 2800\n"),
        ("A gap\r\n", "line 1", ""),
        ("\n\nslot \n", "line 3", ""),
        (long, "line 1 is too long", ""),
        (ASK + "A gap \n\n\n", "line 4", "A s 2800\n"),
        ("\n" * 2 + "A x\n", "line 3", ""),
        ("\n" * 6 + long, "line 7 is too long", ""),
    ):
        yield played(f"refused: {script!r}", EQUIPPED, script, answers, f"script: {fault}")
    yield played("refused, of the least profile", "address = 5", ASK + "A x\n", "A s 2800\n", "script: line 4")
    yield Row("a script that can't be read", "run p .", 4, "", "input: read failed\n", files={"p": "address = 5"})


def refused_lines():
    """Lines that mean nothing: in refused_lines.txt between two bars."""
    for line in (TEXTS / "refused_lines.txt").read_text(encoding="ascii").splitlines():
        text = unescaped(line[1:-1])
        yield played(f"refused line: {line}", "address = 5", text + b"\n", "", "script: line 1")


def limits():
    """As many lines as there may be, as long a line, and one more."""
    most = "\n" * 1_048_576
    for name, script, fault in (
        ("1,048,576 lines", most, ""),
        ("1,048,577 lines", most + "\n", "script: too many lines"),
        ("a line of 64 bytes", "#" * 64, ""),
        ("a line of 65 bytes", "#" * 65, "script: line 1 is too long"),
    ):
        yield played(name, EQUIPPED, script, "", fault)


def refused_before_a_run():
    """Profiles that are refused, each by its first fault, before anything of the script is played."""
    root = "profile: root: {}"
    for profile, fault in (
        ("", root.format("address is missing")),
        ("address = 31", root.format("address is out of range")),
        ("address = -1", root.format("address is out of range")),
        ('address = "5"', root.format("address has the wrong kind")),
        ("address = 5.0", root.format("address has the wrong kind")),
        ("address = 31\nspeed = 1", root.format("unknown key")),
        ("Address = 5", root.format("unknown key")),
        ("address = 5\naddress = 6", NOT_TOML),
        ("address 5", NOT_TOML),
        ("rt1553 3\n", NOT_TOML),
        (changed(64, "own-mode 00000034"), "canonical text: line 64"),
        (PLAIN + "\n", "canonical text: bytes after the end"),
    ):
        yield played(f"no run: {profile}", profile, ASK, "", fault)


# Command lines

JOBS = (
    ("", {}, ASK.encode(), "A s 2800\n"),
    ("--", {}, ASK.encode(), "A s 2800\n"),
    ("check p", {"p": "address = 5"}, b"", "ok\n"),
    ("check -- p", {"p": "address = 5"}, b"", "ok\n"),
    ("check p --", {"p": "address = 5"}, b"", "ok\n"),
    ("check -- -x", {"-x": "address = 5"}, b"", "ok\n"),
    ("check help", {"help": "address = 5"}, b"", "ok\n"),
    ("canon p", {"p": "address = 6"}, b"", canonical(address=6)),
    ("run p q", {"p": "address = 6", "q": "A c 3402\nA gap\nslot\n"}, b"", "A s 3000\n"),
)
WRONG_WORDS = (
    "check", "canon", "run", "run p", "compare p", "check p q", "canon p q", "run p q r", "compare p q r", "--help",
    "-h", "help", "help check", "run --help", "--version", "-V", "che p", "CHECK p", "-- check p", "check -x",
)  # fmt: skip


def command_lines():
    """Words, and the job that they name: it is done with just these files there."""
    for words, files, stdin, output in JOBS:
        yield Row(f"words: {words}", words, 0, output, "", stdin, files)
    yield differ("words: compare p q", "address = 5", "address = 6", "A c 2c02; A gap; slot")
    there = dict.fromkeys(("p", "q", "r", "-x", "help", "check"), "address = 5")
    for words in WRONG_WORDS:
        yield Row(f"words: {words}", words, 3, "", USAGE, files=there)


PARTS = (
    refused_profiles, arrays, ranges, accepted_profiles, many_rules, spellings, parts_that_count, canonical_texts, texts_of_profiles,
    one_line_wrong, after_the_end, wraparound_lines, first_version, shown_by_scripts, shown_by_words, shown_by_wraparound,
    shown_by_transcripts, refused_pair, worked_rows, whole_scripts, refused_scripts, refused_lines, limits, refused_before_a_run,
    command_lines,
)  # fmt: skip
ROWS = [row._replace(name=f"{part.__name__}: {row.name}"[:60]) for part in PARTS for row in part()]


@pytest.mark.parametrize("row", ROWS, ids=lambda it: it.name)
def test_text(rt1553, row, tmp_path):
    check_row(rt1553, row, tmp_path)


@pytest.mark.parametrize("block", blocks("canonical.txt"), ids=lambda it: it.split("\n", 1)[0][:60])
def test_worked_profile(rt1553, block, tmp_path):
    """A profile with those lines of its canonical text that aren't masks without a bit."""
    lines = block.split("\n")
    write_files(tmp_path, {"p": "\n".join(it for it in lines if not it.startswith("> "))})
    given = run(rt1553, "canon", "p", folder=tmp_path)
    output = [it for it in given.output.decode("ascii").splitlines(True) if not it.endswith(" 00000000\n")]
    assert (given.status, output, given.errors) == (0, [f"{it[2:]}\n" for it in lines if it.startswith("> ")], b"")


# each text in parts of 12 lines, from the second: a text with another first line is no canonical text
DAMAGED = [(name, first) for name, text in WHOLE_TEXTS.items() for first in range(2, text.count("\n") + 1, 12)]


@pytest.mark.parametrize("damage", ("cut", "X"))
@pytest.mark.parametrize("name, first", DAMAGED)
def test_damaged_everywhere(rt1553, name, first, damage, tmp_path, count_runs):
    """Texts that end too early, wrong in the line where they end, and texts with a byte that no line has, wrong there."""
    lines, runs = WHOLE_TEXTS[name].splitlines(True), 0
    for number, line in list(enumerate(lines, 1))[first - 1 : first + 11]:
        before, after = "".join(lines[: number - 1]), "".join(lines[number:])
        for at in range(len(line)):
            text = before + line[:at] + ("" if damage == "cut" else damage + line[at + 1 :] + after)
            write_files(tmp_path, {"p": text})
            assert run(rt1553, "check", "p", folder=tmp_path) == (2, b"", f"canonical text: line {number}\n".encode()), f"byte {at}"
            runs += 1
    count_runs(runs)


SOME = worked.NOTHING + "mode = [{codes = 6}, {codes = 18}]\n"
WITHOUT_OPTIONS = worked.EVERYTHING.replace("broadcast = true\naccept_bus_control = true\n", "")
# profiles, and the digests of the transcripts of random messages by the model of the rules
DIGESTS = {
    "wraparound at 30": (worked.EVERYTHING, 0x56801995),
    "wraparound at 29": ("wraparound = 29\n" + worked.EVERYTHING, 0x6BD2E161),
    "no wraparound": ("wraparound = false\n" + worked.EVERYTHING, 0x7714D067),
    "no options": (WITHOUT_OPTIONS, 0x2477F168),
    "some cells legal": (SOME, 0xEA384A15),
}


@functools.lru_cache(maxsize=None)
def random_messages(profile):
    """10,000 messages that look random: the digest, the script and its transcript by the model of the rules."""
    digest, lines, answers = random_scripts.Digest(), [], []

    def note(event, answer):
        digest.note(event, answer)
        lines.append(random_scripts.line_of(event))
        if answer:
            answers.append(play.answer_line(answer))

    messages = random_scripts.Messages(play.setup_of(tomllib.loads(profile)), (29, 30), 1553, note)
    for _ in range(10_000):
        messages.message()
    return digest.value, *("\n".join([*it, ""]) for it in (lines, answers))


@pytest.mark.parametrize("name", DIGESTS)
def test_random_messages(rt1553, name, tmp_path):
    profile, wanted = DIGESTS[name]
    digest, script, answers = random_messages(profile)
    assert digest == wanted
    check_row(rt1553, played(f"10,000 messages, {name}", profile, script, answers), tmp_path)
