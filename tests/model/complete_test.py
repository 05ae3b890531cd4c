"""The acceptance test of a terminal, by the model: one script that tells it from every other terminal.

    complete_test.py check [SEED [ROUNDS]]   plays the test of random terminals to each of them and to others, which
                                             differ in one thing, in a few, or in all; it must tell all of them apart
    complete_test.py sizes                   the number of events for some terminals
    complete_test.py script FILE             the test of a profile without faults, or of a canonical text, line by line

What is checked: each of the others answers otherwise than the terminal itself at some event of the test, the terminal
itself nowhere, and no message and no reply is left over at the end. That is asked of the rules in rules.py, which were
written apart from the definitions.

The exchanges are those of the definitions of the crate bus_complete_test, written anew. An exchange is a command,
its data words and the number of slots after its gap, all on bus A.
"""

import dataclasses
import random
import sys

import canonical
import rules

OWN = [c for c in range(32) if canonical.OWN_CODES >> c & 1]
HEARD = [c for c in range(32) if canonical.BROADCAST_CODES >> c & 1]
REQUIRED = [c for c in range(32) if canonical.REQUIRED_CODES >> c & 1]
PLACES = [(s, n) for s in range(1, 31) for n in range(1, 33)]
ALL = 31


def command(address, tr, subaddress, low):
    return address << 11 | tr << 10 | subaddress << 5 | low


def receive(address, s, words):
    return command(address, 0, s, len(words) % 32), words, 0 if address == ALL else 1


def transmit(address, s, n):
    return command(address, 1, s, n % 32), [], n + 1


def mode_code(address, code):
    slots = 0 if address == ALL else 2 if code in (16, 18, 19) else 1
    return command(address, 0 if code == 17 else 1, 0, code), [0] if code == 17 else [], slots


def first(mask):
    """The least word count of a mask."""
    return (mask & -mask).bit_length()


def exchanges(p):
    """The exchanges that tell the terminal p from every other."""
    own, ask = p.address, mode_code(p.address, 2)
    # the option, and the address
    yield mode_code(ALL, 2)
    yield ask
    # transmit cells, and the words held at power-up: before anything is received
    for s, n in PLACES:
        yield transmit(own, s, n)
    for s, n in PLACES:
        yield receive(own, s, [0] * n)
    # own mode codes; acceptance, the vector word and the BIT word
    for code in OWN:
        yield mode_code(own, code)
    if p.broadcast:
        for s, n in PLACES:
            yield receive(ALL, s, [0] * n)
            yield ask
        for code in HEARD:
            yield mode_code(ALL, code)
            yield ask
    for s in p.wrapping():
        to, mask = (own, p.receive[s - 1]) if p.receive[s - 1] else (ALL, p.heard[s - 1])
        yield receive(to, s, [65535 - p.words[s - 1][0]] + [0] * (first(mask) - 1))
        yield transmit(own, s, first(p.transmit[s - 1]))


def events(p):
    for c, words, slots in exchanges(p):
        yield ("word", "A", rules.valid_word("c", c))
        for word in words:
            yield ("word", "A", rules.valid_word("d", word))
        yield ("gap", "A")
        for _ in range(slots):
            yield ("slot",)


def terminal(p):
    masks = {"own receive": p.receive, "own transmit": p.transmit, "broadcast receive": p.heard}

    def legal(cell):
        if cell[0] == "own mode":
            return p.own_codes >> cell[1] & 1
        if cell[0] == "broadcast mode":
            return p.heard_codes >> cell[1] & 1
        return masks[cell[0]][cell[1] - 1] >> cell[2] - 1 & 1

    held = {(s, i): w for s, words in enumerate(p.words, 1) for i, w in enumerate(words, 1)}
    return rules.Terminal(rules.Setup(p.address, legal, p.broadcast, p.wrap, p.accept, p.vector, p.bit, held))


# ---- random terminals


def normal(p):
    """The part of it that can be reached."""
    words = tuple(
        tuple(w if i < m.bit_length() else 0 for i, w in enumerate(ws)) for ws, m in zip(p.words, p.transmit)
    )
    p = dataclasses.replace(
        p,
        heard=p.heard if p.broadcast else (0,) * 30,
        heard_codes=p.heard_codes & canonical.BROADCAST_CODES if p.broadcast else 0,
        own_codes=p.own_codes & canonical.OWN_CODES | canonical.REQUIRED_CODES,
        words=words,
    )
    return dataclasses.replace(
        p,
        accept=bool(p.accept and p.own_codes & 1),
        vector=p.vector if p.own_codes >> 16 & 1 else 0,
        bit=p.bit if p.own_codes >> 19 & 1 else 0,
        wrap=p.wrap if p.wrap and p.can_wrap(p.wrap) else 0,
    )


def draw_masks(draw):
    way = draw.choice(["none", "all", "few", "many", "mixed"])
    few = lambda: 1 << draw.randrange(32) if draw.random() < 0.3 else 0
    one = {
        "none": lambda: 0,
        "all": lambda: 2**32 - 1,
        "few": few,
        "many": lambda: draw.getrandbits(32) | draw.getrandbits(32),
        "mixed": lambda: draw.choice([0, 2**32 - 1, draw.getrandbits(32), few()]),
    }[way]
    return tuple(one() for _ in range(30))


def draw_word(draw):
    return draw.choice([0, 0xFFFF, 1, 0x8000, draw.getrandbits(16)])


def draw_terminal(draw):
    return normal(
        canonical.Reached(
            address=draw.randrange(31),
            broadcast=draw.random() < 0.7,
            receive=draw_masks(draw),
            transmit=draw_masks(draw),
            heard=draw_masks(draw),
            own_codes=draw.choice([0, 2**32 - 1, draw.getrandbits(32)]),
            heard_codes=draw.choice([0, 2**32 - 1, draw.getrandbits(32)]),
            accept=draw.random() < 0.5,
            vector=draw_word(draw),
            bit=draw_word(draw),
            wrap=draw.randrange(31),
            words=tuple(tuple(draw_word(draw) for _ in range(32)) for _ in range(30)),
        )
    )


def flipped(masks, s, n):
    return tuple(m ^ 1 << n - 1 if k == s else m for k, m in enumerate(masks, 1))


def other_number(draw, low, high, but):
    return draw.choice([k for k in range(low, high + 1) if k != but])


KINDS = ["address", "option", "receive", "transmit", "heard", "own code", "heard code"]
KINDS += ["accept", "vector", "bit", "word", "wrap"]


def changed(draw, p, kind):
    """A terminal that is to differ from p in one thing, and in what follows from it."""
    new = lambda **kw: normal(dataclasses.replace(p, **kw))
    s, n = draw.choice(PLACES)
    if kind == "address":
        return new(address=other_number(draw, 0, 30, p.address))
    if kind == "option":
        return new(broadcast=not p.broadcast)
    if kind in ("receive", "transmit", "heard"):
        return new(**{kind: flipped(getattr(p, kind), s, n)})
    if kind == "own code":
        return new(own_codes=p.own_codes ^ 1 << draw.choice([c for c in OWN if c not in REQUIRED]))
    if kind == "heard code":
        return new(heard_codes=p.heard_codes ^ 1 << draw.choice(HEARD))
    if kind == "accept":
        return new(accept=not p.accept)
    if kind in ("vector", "bit"):
        return new(**{kind: getattr(p, kind) ^ 1 << draw.randrange(16)})
    if kind == "word":
        sent = [s for s in range(1, 31) if p.transmit[s - 1]]
        if sent:
            s = draw.choice(sent)
            n = draw.randrange(1, p.transmit[s - 1].bit_length() + 1)
            n = draw.choice([1, n, p.transmit[s - 1].bit_length()])
        bits = draw.choice([1 << draw.randrange(16), 0xFFFF])
        words = [list(ws) for ws in p.words]
        words[s - 1][n - 1] ^= bits
        return new(words=tuple(map(tuple, words)))
    return new(wrap=draw.choice([k for k in [0, *p.wrapping()] if k != p.wrap] or [0]))


def told(script, answers, q):
    """The number of the event at which q answers otherwise, or None."""
    unit = terminal(q)
    for k, (event, answer) in enumerate(zip(script, answers)):
        if unit.step(event) != answer:
            return k
    return None


def check(seed, rounds):
    draw = random.Random(seed)
    tried, alike, at, failed = dict.fromkeys([*KINDS, "few", "other"], 0), 0, {}, 0
    for _ in range(rounds):
        p = draw_terminal(draw)
        script = list(events(p))
        unit = terminal(p)
        answers = [unit.step(event) for event in script]
        assert unit.reply is None and unit.message is None, "a reply or a message is left over"
        assert told(script, answers, p) is None
        for kind in tried:
            if kind == "few":
                q = p
                for _ in range(draw.randrange(2, 6)):
                    q = changed(draw, q, draw.choice(KINDS))
            elif kind == "other":
                q = dataclasses.replace(draw_terminal(draw), address=p.address)
            else:
                q = changed(draw, p, kind)
            if q == p:
                alike += 1
                continue
            tried[kind] += 1
            where = told(script, answers, q)
            if where is None:
                failed += 1
                print("NOT TOLD APART:", kind, p, q, sep="\n  ")
            else:
                at[kind] = max(at.get(kind, 0), where)
    print("tried:", ", ".join(f"{kind} {n}" for kind, n in tried.items()))
    others = sum(tried.values())
    print("of", others, "others", others - failed, "are told apart;", alike, "changes were none")
    print("latest event that told:", ", ".join(f"{kind} {n}" for kind, n in at.items()))
    return 1 if failed else 0


def sizes():
    full = 2**32 - 1
    none = canonical.Reached(5, False, (0,) * 30, (0,) * 30, (0,) * 30, 0, 0, False, 0, 0, 0, ((0,) * 32,) * 30)
    last = (1 << 31,) * 30
    heard = {"broadcast": True, "heard": (full,) * 30, "heard_codes": full}
    largest = dataclasses.replace(none, receive=last, transmit=last, own_codes=full, **heard)
    plain = dataclasses.replace(none, receive=(full,) * 30, transmit=(full,) * 30, own_codes=full)
    named = {
        "address = 5 and nothing else": none,
        "all legal, without the broadcast option": plain,
        "all legal, with it": dataclasses.replace(plain, **heard),
        "the most events: wraparound by 32 words each way": largest,
    }
    for name, p in named.items():
        p = normal(p)
        print(f"{sum(1 for _ in events(p)):6} events, {sum(1 for _ in exchanges(p)):5} exchanges: {name}")


def lines(p):
    for name, *rest in events(p):
        if name == "word":
            yield f"{rest[0]} {rest[1][0]} {rest[1][1]:04x}"
        else:
            yield " ".join([*rest, name])


if __name__ == "__main__":
    words = sys.argv[1:]
    if words[:1] == ["check"]:
        seed, rounds = [*words[1:], "1", "40"][:2] if len(words) != 2 else [words[1], "40"]
        sys.exit(check(int(seed), int(rounds)))
    elif words == ["sizes"]:
        sizes()
    elif len(words) == 2 and words[0] == "script":
        print(*lines(canonical.load(words[1])), sep="\n")
    else:
        sys.exit(__doc__)
