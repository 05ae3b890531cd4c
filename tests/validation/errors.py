"""5.2.1.3 error injection, and 5.2.1.4 superseding commands on the same bus."""

from script import (
    ALL, BCR, BIT, BUSES, COUNTS, CS, FAULTS, ME, MODES, MODE_SUBADDRESSES, NR, OTHER, OWN, SUBADDRESSES, Script,
    bits_of, command, data, mode, other_bus, own, pattern, receive, status_of, transmit,
)


def families():
    for fault in FAULTS:
        yield wrong_transmit_command(fault)
        yield wrong_receive_command(fault)
        yield wrong_mode_command(fault)
        yield wrong_command_keeps_error(fault)
        yield from wrong_data_word(fault)
    yield single_bits()
    yield behind_transmit_command()
    yield receive_length()
    yield mode_length()
    yield undefined_mode_length()
    yield transfer_length()
    yield gap_in_receive()
    yield gap_elsewhere()
    yield from superseding()


# the clauses of each fault: transmit command word, receive command word, data words
CLAUSES = {
    "parity": ("5.2.1.3.1.1", "5.2.1.3.1.2", "5.2.1.3.1.3"),
    "noise": ("5.2.1.3.2.1, 5.2.1.3.3.1", "5.2.1.3.2.2, 5.2.1.3.3.2", "5.2.1.3.2.3, 5.2.1.3.3.3"),
    "sync": ("5.2.1.3.4.1", "5.2.1.3.4.2", "5.2.1.3.4.3"),
}


def start(fault, part, what, about):
    clauses = CLAUSES[fault][part]
    return Script(f"{clauses.split(',')[0]}_{fault}_{what}", clauses, about.format(FAULTS[fault][0]))


def spoil(fault, words, position=0):
    """Words with one of them wrong."""
    return [FAULTS[fault][1](word) if number == position else word for number, word in enumerate(words)]


def wrong_transmit_command(fault):
    script = start(fault, 0, "transmit", "A transmit command word with {}: no command, and the status stays clear.")
    for subaddress in SUBADDRESSES:
        script.case(f"subaddress {subaddress}")
        for count in COUNTS:
            for bus in BUSES:
                script.transmits(bus, subaddress, count)
                script.wrong(bus, spoil(fault, transmit(subaddress, count)), CS)
    return script


def wrong_receive_command(fault):
    script = start(fault, 1, "receive", "A receive command word with {}, and its data: no command, status clear.")
    for subaddress in SUBADDRESSES:
        script.case(f"subaddress {subaddress}")
        for count in COUNTS:
            for bus in BUSES:
                script.good(bus)
                script.wrong(bus, spoil(fault, receive(subaddress, pattern(subaddress, count))), CS)
    return script


def wrong_mode_command(fault):
    script = start(fault, 0, "mode", "Mode command words with {}: no response, and nothing is done.")
    for subaddress in MODE_SUBADDRESSES:
        for transmits, code in sorted(MODES):
            script.case(f"mode code {code}, subaddress {subaddress}")
            script.receives("A", 2, [1, 2])
            word = None if transmits else 0x0BAD
            script.wrong("A", spoil(fault, mode(code, transmits, subaddress, word)), CS)
            script.mode("A", 18, CS, [bits_of(own(1, 0, 2))])
            script.good("B")
    return script


def wrong_command_keeps_error(fault):
    script = start(fault, 0, "keeps_error", "A command word with {} is no valid command: the error that is kept stays.")
    for bus in BUSES:
        script.case(f"bus {bus}")
        script.message(bus, receive(1, [1], 2), NR)
        script.wrong(bus, spoil(fault, transmit(1, 1)))
        script.wrong(other_bus(bus), spoil(fault, receive(1, [0])))
        script.good(bus)
        script.reports(bus, CS)
    return script


def wrong_data_word(fault):
    if fault != "sync":
        yield wrong_data(fault, "data", "A data word with {}, in each position.",
                         lambda words, place: spoil(fault, words, place))
        return
    # with command sync it is a word to another terminal, to this one or to all, with T/R 0 and 1
    for name, address in (("other", OTHER), ("own", OWN), ("all", ALL)):
        for transmits in (0, 1):
            word = command(address, transmits, 2, 1)

            def wrong_in(words, place, word=word):
                return [*words[:place], word, *words[place + 1:]]

            yield wrong_data(fault, f"data_{name}_{transmits}",
                             f"A data word with {{}}, as {word[2:]}, which is a word to {name} with T/R {transmits}.", wrong_in)


def wrong_data(fault, what, about, wrong_in):
    script = start(fault, 2, what, about)
    for subaddress in SUBADDRESSES:
        script.case(f"subaddress {subaddress}")
        for count in COUNTS if subaddress in (1, 17, 30) else (2,):
            for place in range(1, count + 1):
                bus = BUSES[place % 2]
                words = receive(subaddress, pattern(subaddress, count))
                # a second command behind a receive command makes a transfer, which its time-out ends
                script.good(bus)
                script.on(bus, *wrong_in(words, place), "gap")
                script.wrong(bus, [])
    for subaddress in MODE_SUBADDRESSES:
        script.case(f"synchronize with data word, subaddress {subaddress}")
        for bus in BUSES:
            script.good(bus)
            script.wrong(bus, wrong_in(mode(17, 0, subaddress, 0x0F0F), 1))
    return script


def single_bits():
    script = Script("5.2.1.3.1.1_parity_single_bits", "5.2.1.3.1.1, 5.2.1.3.1.2, 5.2.1.3.1.3",
                    "Each single bit turned of a transmit, a receive, a mode and a data word, the parity bit left as it was.")

    def turned(word, bit):
        bits = bits_of(word)
        return f"{word[0]} {bits ^ 1 << bit:04x} {1 - bits.bit_count() % 2}"

    for bit in range(16):
        script.case(f"bit {bit}")
        for bus in BUSES:
            script.good(bus)
            for first, *rest in (transmit(3, 5), receive(3, [1, 2, 3, 4, 5]), mode(1), mode(4, subaddress=31), mode(8),
                                 mode(17, 0, word=1)):
                script.message(bus, [turned(first, bit), *rest], NR)
                script.reports(other_bus(bus), CS)
            *words, last = receive(3, [0x1234, 0x5678])
            script.wrong(bus, [*words, turned(last, bit)])
    return script


# ---- 5.2.1.3.5 message length


def behind_transmit_command():
    script = Script("5.2.1.3.5.1_each", "5.2.1.3.5.1",
                    "Data words behind a transmit command: one, two, as many as it asks for.")
    for subaddress in SUBADDRESSES:
        script.case(f"subaddress {subaddress}")
        for count in COUNTS:
            for extra in (1, 2, count):
                bus = BUSES[extra % 2]
                script.good(bus)
                script.wrong(bus, transmit(subaddress, count) + data(pattern(subaddress, extra)))
    return script


def wrong_lengths(count):
    return sorted({0, count - 1, count + 1})


def receive_length():
    script = Script("5.2.1.3.5.2_each", "5.2.1.3.5.2", "Receive: no data word, one too few, one too many.")
    for subaddress in SUBADDRESSES:
        script.case(f"subaddress {subaddress}")
        for count in range(1, 33) if subaddress in (1, 30) else COUNTS:
            for given in wrong_lengths(count):
                bus = BUSES[given % 2]
                script.good(bus)
                script.wrong(bus, receive(subaddress, pattern(subaddress, given), count))
    return script


def mode_length():
    script = Script("5.2.1.3.5.3_assigned", "5.2.1.3.5.3",
                    "Mode commands with a data word too many, or none where one belongs: no response, nothing done.")
    for subaddress in MODE_SUBADDRESSES:
        for transmits, code in sorted(MODES):
            script.case(f"mode code {code}, subaddress {subaddress}")
            for given in (1, 2) if transmits else (0, 2, 3):
                script.good("A")
                script.wrong("A", mode(code, transmits, subaddress) + data([0x1E1E] * given))
                script.good("B")
    return script


def undefined_mode_length():
    script = Script("5.2.1.3.5.3_undefined", "5.2.1.3.5.3",
                    "Reserved and undefined mode codes with a wrong number of data words: no response, message error is kept.")
    for subaddress in MODE_SUBADDRESSES:
        for transmits in (0, 1):
            for code in range(32):
                if (transmits, code) in MODES:
                    continue
                script.case(f"mode code {code}, T/R {transmits}, subaddress {subaddress}")
                for given in {0, 1, 2} - {1 if not transmits and code > 15 else 0}:
                    script.good("A")
                    script.wrong("A", mode(code, transmits, subaddress) + data([0x1E1E] * given))
    return script


def transfer_length():
    script = Script("5.2.1.3.5.4_each", "5.2.1.3.5.4",
                    "RT-RT, receiver: the transmitter sends no data word, one too few, one too many.")
    for subaddress in SUBADDRESSES:
        script.case(f"subaddress {subaddress}")
        for count in COUNTS:
            for given in wrong_lengths(count):
                bus = BUSES[given % 2]
                script.good(bus)
                script.on(bus, *receive(subaddress, [], count), *transmit(subaddress, count, OTHER), "gap")
                script.wrong(bus, [status_of(OTHER), *data(pattern(subaddress, given))])
    return script


# ---- 5.2.1.3.6 contiguous data


def gap_in_receive():
    script = Script("5.2.1.3.6_each", "5.2.1.3.6", "Receive: a gap before each data word in turn.")
    for subaddress in SUBADDRESSES:
        script.case(f"subaddress {subaddress}")
        for count in COUNTS if subaddress in (1, 17, 30) else (2,):
            for place in range(1, count + 1):
                bus = BUSES[place % 2]
                words = receive(subaddress, pattern(subaddress, count))
                script.good(bus)
                script.message(bus, words[:place], NR)
                script.wrong(bus, words[place:])
    return script


def gap_elsewhere():
    script = Script("5.2.1.3.6_mode_and_transfer", "5.2.1.3.6",
                    "A gap before the data word of a mode command, and in what the transmitter of a transfer sends.")
    for subaddress in MODE_SUBADDRESSES:
        script.case(f"synchronize with data word, subaddress {subaddress}")
        for bus in BUSES:
            script.good(bus)
            script.message(bus, mode(17, 0, subaddress), NR)
            script.wrong(bus, data([0x1E1E]))
    for count in COUNTS:
        script.case(f"RT-RT, receiver, {count} words")
        for place in range(1, count + 1):
            bus = BUSES[place % 2]
            words = [status_of(OTHER), *data(pattern(4, count))]
            script.good(bus)
            script.on(bus, *receive(4, [], count), *transmit(4, count, OTHER), "gap")
            script.message(bus, words[:place], NR)
            script.wrong(bus, words[place:])
    return script


# ---- 5.2.1.4 superseding commands: a message is broken off, and after a gap another command comes on the same bus


def second_messages(script, bus, first):
    """Each kind of second message with its answer; `first` gives the message that is broken off, and its command."""
    first()
    script.transmits(bus, 2, 2)
    script.reports(bus, CS)
    first()
    script.receives(bus, 2, [7, 8])
    script.reports(bus, CS)
    first()
    script.mode(bus, 19, CS, [BIT])
    script.reports(bus, CS)
    first()
    script.reports(bus, ME)
    script.good(bus)
    script.reports(bus, CS)
    word = first()
    script.mode(bus, 18, ME, [bits_of(word)])
    script.reports(bus, ME)
    first()
    script.hears(bus, 2, [9])
    script.reports(bus, BCR)
    first()
    script.takes(bus, 2, [9, 10])
    script.reports(bus, CS)
    first()
    script.mode(bus, 9, ME)
    script.reports(bus, ME)


def broken_off(script, bus, *parts):
    """What breaks a message off: its parts with a gap behind each of them, and no answer."""
    def first():
        script.good(bus)
        for part in parts:
            script.message(bus, part, NR)
        return parts[0][0]

    return first


def superseding():
    script = Script("5.2.1.4_receive", "5.2.1.4", "A receive command with too few words, a gap, and another command.")
    for count, given in [(1, 0), (2, 0), (2, 1), (3, 0), (3, 1), (3, 2), (32, 0), (32, 1), (32, 16), (32, 31)]:
        script.case(f"{given} words of {count}")
        for bus in BUSES:
            second_messages(script, bus, broken_off(script, bus, receive(12, pattern(12, given), count)))
    yield script
    script = Script("5.2.1.4_transfer", "5.2.1.4", "RT-RT, receiver: the transfer is broken off, and another command comes.")
    commands = [*receive(12, [], 2), *transmit(12, 2, OTHER)]
    for title, parts in (
        ("the transmitter keeps silent", [commands]),
        ("after the time-out", [commands, []]),
        ("its status alone", [commands, [status_of(OTHER)]]),
        ("its status and one word of two", [commands, [status_of(OTHER), *data([1])]]),
    ):
        script.case(title)
        for bus in BUSES:
            second_messages(script, bus, broken_off(script, bus, *parts))
    yield script
    script = Script("5.2.1.4_mode", "5.2.1.4", "Synchronize with data word without its word, a gap, and another command.")
    for bus in BUSES:
        script.case(f"bus {bus}")
        second_messages(script, bus, broken_off(script, bus, mode(17, 0)))
    yield script
