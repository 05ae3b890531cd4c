"""Canonical texts, and the files that tests of `rt1553` name."""

SUBADDRESSES = range(1, 31)
FULL = 0xFFFFFFFF
USAGE = "usage: rt1553 [check P, canon P, run P SCRIPT, compare P Q]\n"
# transmit status word to address 5, which answers `A s 2800`
ASK = "A c 2c02\nA gap\nslot\n"
LOST = "output: write failed\n"


def masks(name, given):
    """The lines of 30 subaddresses: a mask for all, or those of some."""
    for s in SUBADDRESSES:
        yield f"{name} {s:02} {(given.get(s, 0) if isinstance(given, dict) else given):08x}"


def zero_words(transmit):
    """The lines behind the masks where all commands of data to and from a terminal are legal: 32 words of 0 each."""
    return "wraparound 30\n" + "".join(f"initial {s:02}{' 0000' * 32}\n" for s in SUBADDRESSES) if transmit else ""


def canonical(version=2, address=5, own_receive=0, own_transmit=0, heard=None, own_mode=0x134, heard_mode=0, end=None):
    """A canonical text; `heard` are the masks of broadcasts, for a terminal with that option."""
    lines = [f"rt1553 {version}", f"address {address:02}", f"broadcast {int(heard is not None)}"]
    lines += [*masks("own-receive", own_receive), *masks("own-transmit", own_transmit)]
    if heard is not None:
        lines += masks("broadcast-receive", heard)
    lines.append(f"own-mode {own_mode:08x}")
    if heard is not None:
        lines.append(f"broadcast-mode {heard_mode:08x}")
    if end is None:
        end = zero_words(own_transmit) if own_receive == FULL else ""
    return "\n".join(lines) + "\n" + end


def wrapping(version, subaddresses, end):
    """A text of a terminal that may receive a word at these subaddresses and transmit one from them."""
    places = dict.fromkeys(subaddresses, 1)
    return canonical(version, own_receive=places, own_transmit=places, end=end)


def changed(number, line, after="", text=None):
    """A text, the plain one by default, with one line in place of another, from 1, and something behind its end."""
    lines = (text or PLAIN).split("\n")
    lines[number - 1] = line
    return "\n".join(lines) + after


def sized(size, end=""):
    """A profile of address 5 of a size, whose comment goes up to its end."""
    return "address = 5\n".ljust(size - len(end), "#") + end


# the canonical text of address 5: 64 lines, 1,520 bytes
PLAIN = canonical()
LARGEST_FILE = 1 << 20
FILES = {
    "five": "address = 5\n",
    "also-five": "address = 0x05 # the same\n",
    "six": "address = 6\n",
    "bad": "address = 31\n",
    "largest": sized(LARGEST_FILE),
    "over": sized(LARGEST_FILE + 1),
    "canonical": PLAIN,
    "first": canonical(1),
    "cut": PLAIN[:-1],
    "trailing": PLAIN + "\n",
    "whole": 'address = 5\n[[rule]]\ndirection = "both"\nsubaddresses = 3\n',
    "two": 'address = 5\n[[rule]]\ndirection = "transmit"\nsubaddresses = 3\ncounts = 2\n[[initial]]\nsubaddress = 3\nwords = [10, 11]\n',
    "vector": "address = 5\nvector = 0x00aa\n[[mode]]\ncodes = 16\n",
}


def files_named(words):
    """Those of the files that words name."""
    return {it: FILES[it] for it in words.split() if it in FILES}
