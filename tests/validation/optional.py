"""5.2.2.1 optional mode commands, 5.2.2.2 status word bits, 5.2.2.3 illegal command."""

from itertools import product

from script import (
    ALL, BCR, BIT, BUSES, BUSY, COUNTS, CS, DBA, ME, NR, SR, SSF, SUBADDRESSES, Script, TF, VECTOR, bits_of, command,
    other_bus, own, pattern, receive, transmit, with_wrong_parity,
)


def families():
    yield from bus_control()
    yield synchronize()
    yield self_test()
    yield bit_word()
    yield selected_shutdown()
    yield terminal_flag()
    yield vector_word()
    yield last_command()
    yield flags(busy=False)
    yield flags(busy=True)
    yield busy_counts()
    yield broadcast_received()
    yield broadcast_transmit()
    yield error_kept()
    yield illegal_counts()
    yield illegal_length()
    yield illegal_transfers()
    yield illegal_busy()


WALKING = [0, 0xFFFF, 0x5555, 0xAAAA] + [1 << bit for bit in range(16)]


# ---- 5.2.2.1 optional mode commands


def bus_control():
    for profile, status, hand in (("full", DBA, "bus-control"), ("refusing", CS, None), ("notice2", ME, None)):
        what = {DBA: "accepted", CS: "refused", ME: "not implemented"}[status]
        script = Script(f"5.2.2.1.1_{profile}", "5.2.2.1.1", f"Dynamic bus control, {what}.", profile)
        for bus, subaddress in script.variants():
            script.mode(bus, 0, status, subaddress=subaddress, hand=hand)
            script.reports(bus, status)
            script.reports(other_bus(bus), status)
            script.mode(bus, 5)
            script.reports(bus, CS)
        yield script


def synchronize():
    script = Script("5.2.2.1.2_each", "5.2.2.1.2.1, 5.2.2.1.2.2", "Synchronize, without a word and with each bit of a word.")
    for bus, subaddress in script.variants():
        script.mode(bus, 1, subaddress=subaddress, hand="sync")
        script.reports(bus, CS)
        for word in WALKING:
            script.mode(bus, 17, transmits=0, subaddress=subaddress, word=word, hand=f"sync {word:04x}")
        script.reports(bus, CS)
    return script


def self_test():
    script = Script("5.2.2.1.3_each", "5.2.2.1.3", "Initiate self test: clear status, handed over; the result comes later.")
    for bus, subaddress in script.variants():
        script.mode(bus, 3, subaddress=subaddress, hand="self-test")
        script.subsystem("bit 00f0", "flag terminal 1")
        script.transmits(bus, 1, 2, TF)
        script.mode(bus, 19, TF, [0x00F0], subaddress=subaddress)
        script.subsystem("bit 0000", "flag terminal 0")
        script.mode(bus, 19, CS, [0], subaddress=subaddress)
    return script


def bit_word():
    script = Script("5.2.2.1.4_each", "5.2.2.1.4", "Transmit BIT word: the subsystem's, each bit of it.")
    for bus, subaddress in script.variants():
        for word in WALKING:
            script.subsystem(f"bit {word:04x}")
            script.mode(bus, 19, CS, [word], subaddress=subaddress)
        script.reports(bus, CS)
    return script


def selected_shutdown():
    script = Script("5.2.2.1.5_each", "5.2.2.1.5",
                    "Selected transmitter shutdown and override: for more than two buses. Illegal, and nothing is shut down.")
    for bus, subaddress in script.variants():
        for code in (20, 21):
            for word in (0x0000, 0x0001, 0x0002, 0xFFFF):
                script.mode(bus, code, ME, transmits=0, subaddress=subaddress, word=word)
                script.reports(bus, ME)
                script.good(bus)
                script.good(other_bus(bus))
            script.mode(bus, code, ME, subaddress=subaddress)
            script.good(other_bus(bus))
    return script


def terminal_flag():
    script = Script("5.2.2.1.6_each", "5.2.2.1.6", "Inhibit terminal flag and its override; the flag is off while they come.")
    for bus, subaddress in script.variants():
        other = other_bus(bus)
        script.subsystem("flag terminal 1")
        script.good(bus, TF)
        script.good(other, TF)
        script.subsystem("flag terminal 0")
        script.mode(bus, 6, subaddress=subaddress)
        script.subsystem("flag terminal 1")
        script.good(bus)
        script.good(other)
        script.reports(bus, CS)
        script.wrong(bus, receive(1, [], 1))
        script.subsystem("flag terminal 0")
        script.mode(bus, 7, subaddress=subaddress)
        script.subsystem("flag terminal 1")
        script.good(bus, TF)
        script.good(other, TF)
        script.reports(bus, TF)
        script.note("the flag that goes while it is inhibited stays gone")
        script.mode(bus, 6, subaddress=subaddress)
        script.good(bus)
        script.subsystem("flag terminal 0")
        script.mode(bus, 7, subaddress=subaddress)
        script.good(bus)
        script.note("a reset lifts the inhibition")
        script.mode(bus, 6, subaddress=subaddress)
        script.mode(bus, 8, subaddress=subaddress)
        script.subsystem("flag terminal 1")
        script.good(bus, TF)
        script.subsystem("flag terminal 0")
        script.good(bus)
    return script


def vector_word():
    script = Script("5.2.2.1.7_each", "5.2.2.1.7",
                    "Transmit vector word: the subsystem's, each bit of it; with service request.")
    for bus, subaddress in script.variants():
        for word in WALKING:
            script.subsystem(f"vector {word:04x}")
            script.mode(bus, 16, CS, [word], subaddress=subaddress)
        script.subsystem("vector 4321", "flag service 1")
        script.good(bus, SR)
        script.mode(bus, 16, SR, [0x4321], subaddress=subaddress)
        script.subsystem("flag service 0")
        script.mode(bus, 16, CS, [0x4321], subaddress=subaddress)
    return script


def last_command():
    script = Script("5.2.2.1.8_each", "5.2.2.1.8",
                    "Transmit last command: the last valid command that isn't itself; it leaves the status.")
    for bus, subaddress in script.variants():
        def last(bus, status, word):
            script.mode(bus, 18, status, [bits_of(word)], subaddress=subaddress)

        script.transmits(bus, 3, 2)
        for one in (bus, bus, other_bus(bus)):
            last(one, CS, "c 2c62")
        script.note("a message in error, and transmit status word")
        command, *words, spoilt = receive(4, [1, 2, 3])
        script.message(bus, [command, *words, with_wrong_parity(spoilt)], NR)
        last(bus, ME, command)
        last(bus, ME, command)
        script.reports(bus, ME, subaddress)
        last(bus, ME, own(1, subaddress, 2))
        script.note("what is no valid command, or another terminal's")
        for word in (with_wrong_parity("c 2c62"), "c 3462", "d 2c62"):
            script.message(bus, [word], NR)
        last(bus, ME, own(1, subaddress, 2))
        script.note("each kind of command")
        script.receives(bus, 3, [1, 2])
        last(bus, CS, own(0, 3, 2))
        script.mode(bus, 1, hand="sync")
        last(bus, CS, own(1, 0, 1))
        script.mode(bus, 17, transmits=0, word=5, hand="sync 0005")
        last(bus, CS, own(0, 0, 17))
        script.mode(bus, 9, ME, subaddress=31)
        last(bus, ME, own(1, 31, 9))
        script.hears(bus, 3, [1])
        last(bus, BCR, command_to_all(0, 3, 1))
        script.hears_mode(bus, 1, subaddress=31, hand="sync")
        last(bus, BCR, command_to_all(1, 31, 1))
        script.hears_mode(bus, 18)
        last(bus, BCR | ME, command_to_all(1, 0, 18))
        script.takes(bus, 3, [5])
        last(bus, CS, own(0, 3, 1))
        script.gives(bus, 3, 1)
        last(bus, CS, own(1, 3, 1))
    return script


def command_to_all(transmits, subaddress, low):
    return command(ALL, transmits, subaddress, low)


# ---- 5.2.2.2 status word bits


FLAGS = {"service": SR, "busy": BUSY, "subsystem": SSF, "terminal": TF}


def flags(busy):
    clauses = "5.2.2.2.3" if busy else "5.2.2.2.1, 5.2.2.2.4, 5.2.2.2.5"
    script = Script(f"5.2.2.2_flags_{'busy' if busy else 'not_busy'}", clauses,
                    f"Each set of flags {'with' if busy else 'without'} busy, each kind of message, and what is kept.")
    for chosen in product((0, 1), repeat=4):
        names = [name for name, on in zip(FLAGS, chosen) if on]
        if busy == ("busy" in names):
            script.case("flags: " + (", ".join(names) or "none"))
            for bus in BUSES:
                set_flags(script, bus, names)
    return script


def set_flags(script, bus, names):
    """Each kind of message while some flags stand, and what is told when they are taken back."""
    status = sum(FLAGS[name] for name in names)
    script.good(bus)
    script.subsystem(*(f"flag {name} 1" for name in names))
    each_kind(script, bus, status, "busy" in names)
    script.subsystem(*(f"flag {name} 0" for name in names))
    script.note("transmit status word tells the message before it, with the flags of then")
    script.reports(bus, status | ME)
    script.good(bus)
    script.reports(bus, CS)


def each_kind(script, bus, status, busy):
    """Each kind of message with some flags; busy sends and uses no data."""
    script.transmits(bus, 3, 2, status)
    script.reports(bus, status)
    script.receives(bus, 3, [1, 2], status)
    script.reports(other_bus(bus), status)
    script.mode(bus, 1, status, hand="sync")
    script.mode(bus, 19, status, [BIT])
    script.mode(bus, 18, status, [bits_of(own(1, 0, 19))])
    script.mode(bus, 16, status, [] if busy else [VECTOR])
    script.mode(bus, 17, status, transmits=0, word=9, hand=None if busy else "sync 0009")
    script.mode(bus, 9, status | ME)
    script.reports(bus, status | ME)
    script.hears(bus, 3, [5], used=not busy)
    script.reports(bus, status | BCR)
    script.takes(bus, 3, [7], status, used=not busy)
    script.gives(bus, 3, 1, status, [] if busy else None)
    script.wrong(bus, receive(3, [1], 2), status | ME)


def busy_counts():
    script = Script("5.2.2.2.3_counts", "5.2.2.2.3",
                    "Busy: the status alone, no data sent or used, and none kept for wrap-around.")
    for subaddress in SUBADDRESSES:
        script.case(f"subaddress {subaddress}")
        script.subsystem("flag busy 1")
        for count in COUNTS:
            script.transmits("A", subaddress, count, BUSY)
            script.receives("B", subaddress, pattern(subaddress, count), BUSY)
        script.subsystem("flag busy 0")
        script.transmits("A", subaddress, 32)
    return script


def broadcast_received():
    script = Script("5.2.2.2.2_each", "5.2.2.2.2",
                    "Broadcast receive: each subaddress and each word count. The bit is kept, and cleared.")
    for subaddress in SUBADDRESSES:
        script.case(f"subaddress {subaddress}")
        for count in range(1, 33):
            bus = BUSES[count % 2]
            script.hears(bus, subaddress, pattern(subaddress, count))
            script.reports(bus, BCR)
            if count in COUNTS:
                script.reports(bus, BCR)
                script.mode(other_bus(bus), 18, BCR, [bits_of(own(1, 0, 2))])
                script.good(bus)
                script.reports(bus, CS)
                script.hears(bus, subaddress, pattern(subaddress, count, 77))
                script.mode(other_bus(bus), 18, BCR, [bits_of(command_to_all(0, subaddress, count))])
                script.reports(bus, BCR)
    return script


def broadcast_transmit():
    script = Script("5.2.2.2.2_transmit", "5.2.2.2.2", "Commands to all to transmit data are never answered.")
    for subaddress in SUBADDRESSES:
        script.case(f"subaddress {subaddress}")
        for count in COUNTS:
            script.good("A")
            script.wrong("A", transmit(subaddress, count, ALL), ME | BCR)
    return script


def error_kept():
    script = Script("4.3.3.5.4_error_kept", "4.3.3.5.4",
                    "Message error is kept over transmit status word and last command, and cleared by each other command.")
    clears = {
        "transmit": lambda bus: script.good(bus),
        "receive": lambda bus: script.receives(bus, 3, [1]),
        "synchronize": lambda bus: script.mode(bus, 1, hand="sync"),
        "override transmitter shutdown": lambda bus: script.mode(bus, 5),
        "transmit BIT word": lambda bus: script.mode(bus, 19, CS, [BIT]),
        "synchronize with data word": lambda bus: script.mode(bus, 17, transmits=0, word=1, hand="sync 0001"),
        "transfer, receiver": lambda bus: script.takes(bus, 3, [1]),
        "transfer, transmitter": lambda bus: script.gives(bus, 3, 1),
    }
    for title, clear in clears.items():
        script.case(title)
        for bus in BUSES:
            script.wrong(bus, receive(3, [1], 2))
            script.reports(other_bus(bus), ME)
            script.mode(bus, 18, ME, [bits_of(own(1, 0, 2))])
            clear(bus)
            script.reports(bus, CS)
            script.mode(bus, 9, ME)
            script.reports(other_bus(bus), ME)
            clear(other_bus(bus))
            script.reports(bus, CS)
    for title, heard in (("broadcast", lambda bus: script.hears(bus, 3, [1])),
                         ("broadcast synchronize", lambda bus: script.hears_mode(bus, 1, hand="sync"))):
        script.case(title)
        for bus in BUSES:
            script.wrong(bus, receive(3, [1], 2))
            heard(bus)
            script.reports(bus, BCR)
            script.mode(bus, 9, ME)
            script.reports(bus, ME)
    return script


# ---- 5.2.2.3 illegal command, of the profile `partly`


def illegal_counts():
    script = Script("5.2.2.3_each", "5.2.2.3", "Each subaddress and count of a terminal to which some are illegal.", "partly")
    for subaddress in SUBADDRESSES:
        script.case(f"subaddress {subaddress}")
        for count in range(1, 33):
            status = CS if subaddress <= 10 and count in (2, 31, 32) else ME
            script.receives("A", subaddress, pattern(subaddress, count), status)
            script.reports("B", status)
            status = CS if 5 <= subaddress <= 15 and count in (1, 16) else ME
            script.transmits("B", subaddress, count, status)
            script.reports("A", status)
            legal = subaddress <= 5 and count == 3
            script.hears("A", subaddress, pattern(subaddress, count), used=legal)
            script.reports("A", BCR if legal else BCR | ME)
    return script


def illegal_length():
    script = Script("5.2.2.3_length", "5.2.2.3",
                    "Illegal commands with a wrong number of words, wrong parity or a gap: no response, message error is kept.",
                    "partly")
    for bus, count in product(BUSES, (1, 3, 30)):
        script.case(f"{count} words, bus {bus}")
        command, *words = receive(1, pattern(1, count))
        for wrong in (receive(1, pattern(1, count - 1), count), receive(1, pattern(1, count + 1), count),
                      [command, *words[:-1], with_wrong_parity(words[-1])], [command, "gap", *words]):
            script.receives(bus, 1, [1, 2])
            script.wrong(bus, wrong)
        script.receives(bus, 1, [1, 2])
        script.wrong(bus, [*transmit(5, 2), "d 0001"])
        script.receives(bus, 1, [1, 2])
        script.wrong(bus, receive(1, [1], 2, ALL), BCR | ME)
    return script


def illegal_transfers():
    script = Script("5.2.2.3_transfers", "5.2.2.3",
                    "Illegal commands in transfers: as receiver nothing is used, as transmitter no data is sent.", "partly")
    for bus in BUSES:
        script.case(f"bus {bus}")
        for subaddress, words in ((1, [1]), (20, [1, 2, 3])):
            script.takes(bus, subaddress, words, ME, used=False)
            script.reports(bus, ME)
        script.takes(bus, 1, [1, 2])
        script.reports(bus, CS)
        for subaddress, count in ((5, 2), (20, 1)):
            script.gives(bus, subaddress, count, ME, [])
            script.reports(bus, ME)
        script.gives(bus, 5, 1)
        script.reports(bus, CS)
        script.message(bus, [*receive(1, [], 2, ALL), *transmit(5, 2)], ME)
        script.reports(bus, ME)
        script.takes(bus, 7, [1, 2, 3], address=ALL, used=False)
        script.reports(bus, ME | BCR)
    return script


def illegal_busy():
    script = Script("5.2.2.3_busy", "5.2.2.3, 5.2.2.2.3",
                    "Illegal commands while busy: message error with busy, no data.", "partly")
    for bus in BUSES:
        script.case(f"bus {bus}")
        script.subsystem("flag busy 1")
        script.receives(bus, 1, [1], ME | BUSY)
        script.reports(bus, ME | BUSY)
        script.transmits(bus, 5, 2, ME | BUSY)
        script.reports(bus, ME | BUSY)
        script.mode(bus, 19, ME | BUSY)
        script.mode(bus, 17, ME | BUSY, transmits=0, word=1)
        script.reports(bus, ME | BUSY)
        script.hears(bus, 1, [1], used=False)
        script.reports(bus, ME | BUSY | BCR)
        script.receives(bus, 1, [1, 2], BUSY)
        script.subsystem("flag busy 0")
        script.receives(bus, 1, [1, 2])
    return script
