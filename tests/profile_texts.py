"""Random texts of profiles: TOML that means a terminal of the model in one of many ways."""

import dataclasses

import canonical


def trimmed(p):
    """A terminal with just the words that it can send, as canonical texts have them."""
    return dataclasses.replace(p, words=tuple(words[: mask.bit_length()] for words, mask in zip(p.words, p.transmit)))


def ranges_text(draw, numbers):
    """A text of ranges that names these numbers, in any order."""
    parts, left = [], sorted(numbers)
    while left:
        size = 1
        while size < len(left) and left[size] == left[0] + size and draw.random() < 0.9:
            size += 1
        parts.append(f"{left[0]}-{left[size - 1]}" if size > 1 or draw.random() < 0.1 else f"{left[0]}")
        left = left[size:]
    draw.shuffle(parts)
    return '"' + draw.choice([",", ", ", " , "]).join(parts) + '"'


def bits_of(mask, first):
    """The numbers of the bits of a mask, the lowest of which has this one."""
    return [n + first for n in range(32) if mask >> n & 1]


def number_text(draw, word):
    """A number of TOML."""
    return draw.choice([f"{word}", f"0x{word:x}", f"0x{word:04X}"])


def rules_text(draw, to, direction, masks):
    """Rules that make just these word counts legal: those of each mask apart from the others."""
    groups = {}
    for s, mask in enumerate(masks, 1):
        if mask:
            groups.setdefault((mask, draw.randrange(2)), []).append(s)
    for (mask, all_but), subaddresses in groups.items():
        to_text = f'to = "{to}"\n' if to == "broadcast" or draw.random() < 0.3 else ""
        head = f'[[rule]]\n{to_text}direction = "{direction}"\nsubaddresses = {ranges_text(draw, subaddresses)}\n'
        others = bits_of(~mask, 1)
        if all_but and others:
            yield f"{head}{head}counts = {ranges_text(draw, others)}\nlegal = false\n"
        else:
            yield f"{head}counts = {ranges_text(draw, bits_of(mask, 1))}\n" if others or draw.random() < 0.5 else head


def root_text(draw, p):
    """The settings of a profile, in any order; one that can't be reached may be there."""
    idle = lambda: number_text(draw, draw.getrandbits(16)) if draw.random() < 0.5 else None  # noqa: E731
    settings = {
        "address": number_text(draw, p.address),
        "broadcast": "true" if p.broadcast else draw.choice(["false", None]),
        "accept_bus_control": draw.choice(["true", "false", None]) if not p.own_codes & 1 else "true" if p.accept else None,
        "vector": number_text(draw, p.vector) if p.own_codes >> 16 & 1 else idle(),
        "bit": number_text(draw, p.bit) if p.own_codes >> 19 & 1 else idle(),
        "wraparound": str(p.wrap) if p.wrap else draw.choice(["false", *(str(s) for s in range(1, 31) if s not in p.wrapping())]),
    }
    if p.wrap == 30:
        settings["wraparound"] = draw.choice(["true", "30", None])
    lines = [f"{key} = {value}\n" for key, value in settings.items() if value]
    draw.shuffle(lines)
    return "".join(lines)


def modes_text(draw, p):
    """The entries of mode codes. Codes that can't be legal change nothing."""
    own = bits_of(p.own_codes | draw.getrandbits(32) & ~canonical.OWN_CODES, 0)
    codes = p.heard_codes if p.broadcast else draw.getrandbits(32)
    codes = bits_of(codes | draw.getrandbits(32) & ~canonical.BROADCAST_CODES, 0)
    yield f"[[mode]]\ncodes = {ranges_text(draw, own)}\n"
    if codes:
        yield f'[[mode]]\nto = "broadcast"\ncodes = {ranges_text(draw, codes)}\n'


def initial_text(draw, p):
    """The entries of words at power-up, in two parts for each subaddress, with words that can't be sent at the end."""
    for s, (words, mask) in enumerate(zip(p.words, p.transmit), 1):
        words = [*words[: mask.bit_length()], *(draw.getrandbits(16) for _ in range(draw.randrange(33 - mask.bit_length())))]
        cut = draw.randrange(len(words) + 1)
        for at, part in ((1, words[:cut]), (cut + 1, words[cut:])):
            if any(part):
                numbers = ", ".join(number_text(draw, word) for word in part)
                yield f"[[initial]]\nsubaddress = {s}\nat = {at}\nwords = [{numbers}]\n"


def toml_of(draw, p):
    """A profile of a terminal: with entries split, in any order, and with what can't be reached."""
    root = root_text(draw, p)
    heard = p.heard if p.broadcast else tuple(draw.getrandbits(32) for _ in range(30))
    ways = (("own", "receive", p.receive), ("own", "transmit", p.transmit), ("broadcast", "receive", heard))
    entries = [entry for way in ways for entry in rules_text(draw, *way)]
    entries += [*modes_text(draw, p), *initial_text(draw, p)]
    draw.shuffle(entries)
    return root + "".join(entries)
