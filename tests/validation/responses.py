"""5.2.1.1 response to command words, 5.2.1.2 intermessage gap, 5.2.1.9 unique address."""

from script import (
    ALL, BCR, BIT, BUSES, CS, DBA, ME, MODES, MODE_SUBADDRESSES, NR, OTHER, OWN, SUBADDRESSES, Script, VECTOR, bits_of,
    command, data, held, mode, other_bus, own, pattern, receive, status_of, transmit,
)


def families():
    yield from data_commands()
    yield from mode_commands()
    yield required_codes_alone()
    yield no_broadcast()
    yield other_addresses()
    yield from transfers()
    yield from intermessage_gap()
    yield from unique_address()


def data_commands():
    script = Script("5.2.1.1.1_receive", "5.2.1.1.1", "Receive: each subaddress and each word count on both buses.")
    for subaddress in SUBADDRESSES:
        script.case(f"subaddress {subaddress}")
        for count in range(1, 33):
            for bus in BUSES:
                script.receives(bus, subaddress, pattern(subaddress, count, ord(bus)))
    yield script
    script = Script("5.2.1.1.1_transmit", "5.2.1.1.1", "Transmit: each subaddress and each word count on both buses.")
    for subaddress in SUBADDRESSES:
        script.case(f"subaddress {subaddress}")
        for count in range(1, 33):
            for bus in BUSES:
                script.transmits(bus, subaddress, count)
    yield script


def mode_commands():
    for subaddress in MODE_SUBADDRESSES:
        script = Script(f"5.2.1.1.1_mode_{subaddress:02}", "5.2.1.1.1",
                        f"Each mode code with each T/R, subaddress {subaddress}, to the own address, on both buses.")
        for transmits in (0, 1):
            for code in range(32):
                script.case(f"mode code {code}, T/R {transmits}" + ("" if (transmits, code) in MODES else ": message error"))
                for bus in BUSES:
                    one_mode_command(script, bus, subaddress, transmits, code)
        yield script


def one_mode_command(script, bus, subaddress, transmits, code):
    assigned = (transmits, code) in MODES
    status = CS if assigned else ME
    word, sent, hand = 0x0F1E if not transmits and code > 15 else None, [], None
    if assigned:
        status = DBA if code == 0 else CS
        sent = {16: [VECTOR], 18: [bits_of(own(1, 1, 1))], 19: [BIT]}.get(code, [])
        hand = {0: "bus-control", 1: "sync", 3: "self-test", 17: "sync 0f1e"}.get(code)
    script.good(bus)
    script.mode(bus, code, status, sent, transmits, subaddress, word, hand)
    script.reports(bus, status)
    if assigned and code == 4:
        script.good(bus)
        script.good(other_bus(bus), NR)
        script.mode(bus, 5)
    script.good(bus)
    script.good(other_bus(bus))
    script.reports(bus, CS)


def required_codes_alone():
    script = Script("5.2.1.1.1_minimal", "5.2.1.1.1",
                    "A terminal with the four required mode codes and nothing else: all other commands are illegal.", "minimal")
    for transmits in (0, 1):
        for code in range(32):
            script.case(f"mode code {code}, T/R {transmits}")
            status = CS if transmits and code in (2, 4, 5, 8) else ME
            script.mode("A", code, status, transmits=transmits, word=0x00FF if not transmits and code > 15 else None)
            script.reports("A", status)
            script.mode("A", 5)
            script.reports("A", CS)
    for subaddress in (1, 15, 30):
        script.case(f"subaddress {subaddress}: message error, no data")
        for count in range(1, 33):
            script.receives("A", subaddress, pattern(subaddress, count), ME)
            script.transmits("B", subaddress, count, ME)
    return script


def no_broadcast():
    script = Script("5.2.1.1.1_no_broadcast", "5.2.1.1.1",
                    "Broadcast commands to a terminal without the option: not for it, and the kept status stays.",
                    "no_broadcast")
    script.case("message error is kept over all of them")
    script.message("A", receive(1, [], 2), NR)
    for transmits in (0, 1):
        for subaddress in range(32):
            for low in (0, 1, 2, 8, 17, 31):
                words = [1] if low > 15 else []
                if subaddress not in MODE_SUBADDRESSES:
                    words = pattern(subaddress, low or 32)
                script.message("A", [command(ALL, transmits, subaddress, low), *data([] if transmits else words)], NR)
    script.reports("A", ME)
    script.reports("B", ME)
    return script


def other_addresses():
    script = Script("5.2.1.1.1_other_addresses", "5.2.1.1.1",
                    "Commands to all other terminals: no response, and the kept status stays.")
    script.case("message error is kept over all of them")
    script.message("A", receive(1, [], 2), NR)
    for address in set(range(31)) - {OWN}:
        script.message("A", receive(1, [0xFFFF], address=address), NR)
        script.message("B", transmit(1, 1, address), NR)
        script.message("A", mode(2, address=address), NR)
        script.message("B", mode(8, subaddress=31, address=address), NR)
    script.reports("A", ME)
    script.reports("B", ME)
    return script


def transfers():
    def others():
        """Each subaddress with another terminal."""
        for subaddress in SUBADDRESSES:
            yield subaddress, (OTHER + subaddress) % 31 if (OTHER + subaddress) % 31 != OWN else 7

    script = Script("5.2.1.1.2_receiver", "5.2.1.1.2", "RT-RT, receiver: each subaddress and each word count.")
    for subaddress, other in others():
        script.case(f"subaddress {subaddress}, from terminal {other}")
        for count in range(1, 33):
            script.takes(BUSES[count % 2], subaddress, pattern(subaddress, count), other=other, theirs=31 - subaddress)
    yield script
    script = Script("5.2.1.1.2_transmitter", "5.2.1.1.2", "RT-RT, transmitter: each subaddress and each word count.")
    for subaddress, other in others():
        script.case(f"subaddress {subaddress}, to terminal {other}")
        for count in range(1, 33):
            script.gives(BUSES[count % 2], subaddress, count, other=other)
    yield script
    script = Script("5.2.1.1.2_broadcast_receiver", "5.2.1.1.2, 5.2.2.2.2",
                    "RT-RT to all, receiver: each subaddress and each word count.")
    for subaddress in SUBADDRESSES:
        script.case(f"subaddress {subaddress}")
        for count in range(1, 33):
            script.takes(BUSES[count % 2], subaddress, pattern(subaddress, count), address=ALL)
            script.reports(BUSES[count % 2], BCR)
    yield script
    script = Script("5.2.1.1.2_broadcast_transmitter", "5.2.1.1.2",
                    "RT-RT to all, transmitter: each subaddress and each word count.")
    for subaddress in SUBADDRESSES:
        script.case(f"subaddress {subaddress}")
        for count in range(1, 33):
            bus = BUSES[count % 2]
            words = [*receive(subaddress, [], count, ALL), *transmit(subaddress, count)]
            script.message(bus, words, CS, held(subaddress, count))
            script.reports(bus, CS)
    yield script


# one message of each kind with its answer, and no slot behind its last word: what comes next comes at once
KINDS = {
    "receive": lambda script, bus: script.receives(bus, 7, [0x1111, 0x2222], slots=0),
    "transmit": lambda script, bus: script.transmits(bus, 8, 3, slots=0),
    "mode command": lambda script, bus: script.mode(bus, 1, hand="sync", slots=0),
    "mode command that transmits": lambda script, bus: script.mode(bus, 19, sent=[BIT], slots=0),
    "mode command that receives": lambda script, bus: script.mode(bus, 17, transmits=0, word=7, hand="sync 0007", slots=0),
    "transfer, receiver": lambda script, bus: script.takes(bus, 9, [0x3333], slots=0),
    "transfer, transmitter": lambda script, bus: script.gives(bus, 10, 2, slots=0),
    "broadcast": lambda script, bus: script.hears(bus, 11, [0x4444], slots=0),
    "broadcast mode command": lambda script, bus: script.hears_mode(bus, 1, hand="sync", slots=0),
    "broadcast mode command that receives":
        lambda script, bus: script.hears_mode(bus, 17, transmits=0, word=8, hand="sync 0008", slots=0),
    "receive, another terminal":
        lambda script, bus: script.on(bus, *receive(1, [5, 6], address=OTHER), "gap", status_of(OTHER), "gap"),
    "transmit, another terminal":
        lambda script, bus: script.on(bus, *transmit(1, 2, OTHER), "gap", status_of(OTHER), *data([5, 6]), "gap"),
    "transfer, two other terminals":
        lambda script, bus: script.on(bus, *receive(1, [], 1, OTHER), *transmit(1, 1, 7), "gap",
                                      status_of(7), *data([6]), "gap", status_of(OTHER), "gap"),
}


def intermessage_gap():
    script = Script("5.2.1.2_each_after_each", "5.2.1.2.1, 5.2.1.2.2",
                    "Each kind of message right behind one of each kind, on both buses, without a slot between them.")
    for first, one in KINDS.items():
        script.case(f"after: {first}")
        for bus in BUSES:
            for two in KINDS.values():
                one(script, bus)
                two(script, bus)
                one(script, other_bus(bus))
                two(script, bus)
    yield script


def unique_address():
    for address in range(31):
        script = Script(f"5.2.1.9_{address:02}", "5.2.1.9", f"Address {address} answers to itself alone.",
                        f"address_{address:02}", address)
        script.case("commands to each of the 32 addresses")
        for other in range(32):
            meant = other == address
            script.message("A", mode(2, address=other), CS if meant else NR)
            script.message("B", mode(2, subaddress=31, address=other), CS if meant else NR)
            script.message("A", receive(1, [0x1111], address=other), ME if meant else NR)
            if meant:
                script.message("A", mode(5, address=other), CS)
        yield script
