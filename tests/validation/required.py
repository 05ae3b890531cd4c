"""5.2.1.5 required mode commands and 5.2.1.6 data wrap-around, of the profile with everything and of the least one."""

from script import (
    BIT, BUSES, COUNTS, CS, ME, NR, OTHER, Script, TF, VECTOR, mode, other_bus, own, pattern, receive, with_wrong_parity,
)

# the profiles, with a subaddress that each of them can receive at and transmit from, and the word held there
PROFILES = {"full": (1, 0x0101), "notice2": (30, 0x0000)}


def families():
    for profile in PROFILES:
        yield transmit_status(profile)
        yield shutdown(profile)
        yield reset(profile)
        yield wraparound(profile)
        yield wraparound_patterns(profile)
    yield power_up_state()
    yield no_reset()
    yield wraparound_transfers()


def legal(script, bus, status=CS):
    """A valid legal message, whichever the profile."""
    subaddress, word = PROFILES[script.profile]
    script.transmits(bus, subaddress, 1, status, [] if status is NR else [word])


def transmit_status(profile):
    script = Script(f"5.2.1.5.1_{profile}", "5.2.1.5.1", "Transmit status word reports the kept status and leaves it.", profile)
    place = PROFILES[profile][0]
    for bus, subaddress in script.variants():
        command, first, second = receive(place, [0x1111, 0x2222])
        legal(script, bus)
        script.message(bus, [command, first, with_wrong_parity(second)], NR)
        script.reports(bus, ME, subaddress)
        script.reports(bus, ME, subaddress)
        script.reports(other_bus(bus), ME, subaddress)
        legal(script, bus)
        script.reports(bus, CS, subaddress)
        script.reports(other_bus(bus), CS, subaddress)
    return script


def shutdown(profile):
    script = Script(f"5.2.1.5.2_{profile}", "5.2.1.5.2",
                    "Transmitter shutdown and its override, each for the other bus; a bus that is shut down still receives.",
                    profile)
    place = PROFILES[profile][0]
    for bus, subaddress in script.variants():
        other = other_bus(bus)

        def order(bus, code, status=CS, subaddress=subaddress):
            script.mode(bus, code, status, subaddress=subaddress)

        order(bus, 4)
        legal(script, bus)
        legal(script, other, NR)
        order(other, 2, NR)
        script.note("the override by the bus that is shut down is for the other one")
        order(other, 5, NR)
        legal(script, other, NR)
        legal(script, bus)
        order(bus, 5)
        legal(script, bus)
        legal(script, other)
        script.note("each bus shuts the other down, and its override is carried out though it isn't answered")
        order(bus, 4)
        order(other, 4, NR)
        legal(script, bus, NR)
        legal(script, other, NR)
        order(bus, 5, NR)
        legal(script, other)
        legal(script, bus, NR)
        order(other, 5)
        legal(script, bus)
        legal(script, other)
        script.note("what comes on the silent bus is received and used, and an error there is kept")
        order(bus, 4)
        script.receives(other, 30, [0x0123, 0x4567], NR, used=True)
        script.transmits(bus, 30, 2, CS, [0x0123, 0x4567])
        script.message(other, receive(place, [0x0123], 2), NR)
        order(bus, 2, ME)
        order(bus, 5)
        script.note("the subaddress holds again what it held at power-up")
        order(bus, 8)
    return script


def reset(profile):
    script = Script(f"5.2.1.5.3_{profile}", "5.2.1.5.3", "Reset: the status, then both transmitters are enabled.", profile)
    place = PROFILES[profile][0]
    for bus, subaddress in script.variants():
        other = other_bus(bus)
        script.mode(bus, 4, subaddress=subaddress)
        legal(script, other, NR)
        script.mode(bus, 8, subaddress=subaddress)
        legal(script, other)
        legal(script, bus)
        script.note("an error that was kept is neither in its status nor kept after it")
        script.message(bus, receive(place, [], 2), NR)
        script.mode(bus, 8, subaddress=subaddress)
        script.reports(bus, CS, subaddress)
        script.note("by the bus that is shut down: no answer, and yet a reset")
        script.mode(bus, 4, subaddress=subaddress)
        script.mode(other, 8, NR, subaddress=subaddress)
        legal(script, other)
        legal(script, bus)
    return script


def power_up_state():
    script = Script("5.2.1.5.3_power_up_state", "5.2.1.5.3",
                    "What a reset takes back (4.3.3.5.1.7.9): data words, wrap-around, vector word, BIT word, inhibition.")
    for bus, subaddress in script.variants():
        script.subsystem("write 03 01 beef", "vector 0777", "bit 0888")
        script.receives(bus, 30, [0x4444, 0x5555])
        script.transmits(bus, 3, 2, CS, [0xBEEF, 0x0302])
        script.mode(bus, 16, CS, [0x0777])
        script.mode(bus, 19, CS, [0x0888])
        script.transmits(bus, 30, 3, CS, [0x4444, 0x5555, 0x1E03])
        script.mode(bus, 6)
        script.subsystem("flag terminal 1")
        script.note("its own status comes before it, with the flag still inhibited")
        script.mode(bus, 8, subaddress=subaddress)
        script.transmits(bus, 3, 2, TF)
        script.mode(bus, 16, TF, [VECTOR])
        script.mode(bus, 19, TF, [BIT])
        script.transmits(bus, 30, 3, TF)
        script.subsystem("flag terminal 0")
        script.good(bus)
    return script


def no_reset():
    script = Script("5.2.1.5.3_no_reset", "5.2.1.5.3", "A reset that is invalid, illegal or another terminal's resets nothing.")
    for bus in BUSES:
        script.case(f"bus {bus}")
        script.subsystem("write 03 01 beef")
        script.message(bus, [with_wrong_parity(own(1, 0, 8))], NR)
        script.message(bus, mode(8, word=0), NR)
        script.mode(bus, 8, ME, transmits=0)
        script.message(bus, mode(8, address=OTHER), NR)
        script.note("one whose status isn't sent, since a command comes on the other bus before its slot")
        script.on(bus, *mode(8), "gap")
        script.transmits(other_bus(bus), 3, 1, CS, [0xBEEF])
        script.transmits(bus, 3, 1, CS, [0xBEEF])
    return script


def wraparound(profile):
    script = Script(f"5.2.1.6_{profile}_counts", "5.2.1.6", "Wrap-around: each word count, both buses and crosswise.", profile)
    for count in range(1, 33):
        script.case(f"{count} words")
        for one in BUSES:
            for two in BUSES:
                words = pattern(count, count, ord(one) * 3 + ord(two))
                script.receives(one, 30, words)
                script.transmits(two, 30, count, CS, words)
    return script


def wraparound_patterns(profile):
    script = Script(f"5.2.1.6_{profile}_patterns", "5.2.1.6", "Wrap-around: 32 words of each of ten patterns.", profile)
    patterns = {
        "zeros": [0] * 32, "ones": [0xFFFF] * 32, "5555": [0x5555] * 32, "aaaa": [0xAAAA] * 32,
        "5555 and aaaa in turn": [0x5555, 0xAAAA] * 16, "a one that walks": [1 << k % 16 for k in range(32)],
        "a zero that walks": [0xFFFF ^ 1 << k % 16 for k in range(32)],
        "like a command and a status word": [0x2C02, 0x2800] * 16, "counted": list(range(32)),
        "8000 and 7fff in turn": [0x8000, 0x7FFF] * 16,
    }
    for title, words in patterns.items():
        script.case(title)
        for bus in BUSES:
            script.receives(bus, 30, words)
            script.transmits(bus, 30, 32, CS, words)
    return script


def wraparound_transfers():
    script = Script("5.2.1.6_transfers", "5.2.1.6",
                    "Wrap-around with transfers in and out: no distinction between them (30.8).")
    for count in COUNTS:
        script.case(f"{count} words")
        for bus in BUSES:
            words = pattern(count, count, 5)
            script.takes(bus, 30, words)
            script.transmits(bus, 30, count, CS, words)
            script.receives(bus, 30, words[::-1])
            script.gives(bus, 30, count, CS, words[::-1])
    return script
