"""5.2.2.4 broadcast mode commands, 5.2.2.5 error injection by broadcast."""

from itertools import product

from errors import spoil, wrong_lengths
from script import (
    ALL, BCR, BROADCAST_MODES, BUSES, COUNTS, CS, FAULTS, ME, MODE_SUBADDRESSES, NR, OTHER, SUBADDRESSES, Script, TF,
    command, data, mode, other_bus, pattern, receive, with_wrong_parity,
)


def families():
    for subaddress in MODE_SUBADDRESSES:
        yield each_code(subaddress)
    yield synchronize_and_self_test()
    yield shutdown()
    yield selected_shutdown()
    yield terminal_flag()
    yield reset()
    yield not_by_broadcast()
    for fault in FAULTS:
        yield wrong_command(fault)
        yield wrong_data(fault)
    yield lengths()
    yield mode_lengths()
    yield no_transfer()


# ---- 5.2.2.4 broadcast mode commands


def each_code(subaddress):
    script = Script(f"5.2.2.4_mode_{subaddress:02}", "5.2.2.4",
                    f"Each mode code with each T/R, subaddress {subaddress}, to all.")
    for transmits, code in product((0, 1), range(32)):
        allowed = (transmits, code) in BROADCAST_MODES
        script.case(f"mode code {code}, T/R {transmits}" + ("" if allowed else ": nothing is done"))
        for bus in BUSES:
            word = 0x0F1E if not transmits and code > 15 else None
            hand = {1: "sync", 3: "self-test", 17: "sync 0f1e"}.get(code) if allowed else None
            script.good(bus)
            script.hears_mode(bus, code, transmits, subaddress, word, hand)
            # what is kept after a reset is one of the choices
            if not (allowed and code == 8):
                script.reports(bus, BCR if allowed else BCR | ME)
                script.reports(bus, BCR if allowed else BCR | ME)
            if allowed and code == 4:
                script.good(other_bus(bus), NR)
                script.hears_mode(bus, 5)
            script.good(bus)
            script.good(other_bus(bus))
            script.reports(bus, CS)
    return script


def synchronize_and_self_test():
    script = Script("5.2.2.4_synchronize_and_self_test", "5.2.2.4.1, 5.2.2.4.2",
                    "Broadcast synchronize and initiate self test.")
    for bus, subaddress in script.variants():
        for code, transmits, word, hand in ((1, 1, None, "sync"), (17, 0, 0x0ABC, "sync 0abc"), (3, 1, None, "self-test")):
            script.hears_mode(bus, code, transmits, subaddress, word, hand)
            script.reports(bus, BCR)
            script.good(bus)
            script.reports(bus, CS)
    return script


def shutdown():
    script = Script("5.2.2.4.3_each", "5.2.2.4.3", "Broadcast transmitter shutdown and override: of the other bus.")
    for bus, subaddress in script.variants():
        other = other_bus(bus)
        script.hears_mode(bus, 4, subaddress=subaddress)
        script.reports(bus, BCR)
        script.good(bus)
        script.good(other, NR)
        script.note("the override on the silent bus is for the other one")
        script.hears_mode(other, 5, subaddress=subaddress)
        script.good(other, NR)
        script.good(bus)
        script.hears_mode(bus, 5, subaddress=subaddress)
        script.reports(bus, BCR)
        script.good(other)
        script.good(bus)
    return script


def selected_shutdown():
    script = Script("5.2.2.4.4_each", "5.2.2.4.4",
                    "Broadcast selected transmitter shutdown and override: nothing is shut down.")
    for bus, subaddress in script.variants():
        for code, word in product((20, 21), (0, 1, 0xFFFF)):
            script.hears_mode(bus, code, 0, subaddress, word)
            script.reports(bus, ME | BCR)
            script.good(bus)
            script.good(other_bus(bus))
    return script


def terminal_flag():
    script = Script("5.2.2.4.5_each", "5.2.2.4.5", "Broadcast inhibit terminal flag and override.")
    for bus, subaddress in script.variants():
        script.subsystem("flag terminal 1")
        script.good(bus, TF)
        script.hears_mode(bus, 6, subaddress=subaddress)
        script.good(bus)
        script.good(other_bus(bus))
        script.hears_mode(bus, 7, subaddress=subaddress)
        script.good(bus, TF)
        script.subsystem("flag terminal 0")
        script.good(bus)
    return script


def reset():
    script = Script("5.2.2.4.6_each", "5.2.2.4.6", "Broadcast reset: no response, both transmitters are enabled.")
    for bus, subaddress in script.variants():
        for one in (bus, other_bus(bus)):
            script.subsystem("write 03 01 beef")
            script.mode(bus, 4)
            script.good(other_bus(bus), NR)
            script.hears_mode(one, 8, subaddress=subaddress)
            script.good(other_bus(bus))
            script.good(bus)
            script.transmits(bus, 3, 1)
    return script


def not_by_broadcast():
    script = Script("5.2.2.4.7_each", "5.2.2.4.7",
                    "Broadcast dynamic bus control, and the other codes that may not be broadcast: nothing sent, nothing done.")
    for bus, subaddress in script.variants():
        for code in (0, 2, 16, 18, 19):
            script.hears_mode(bus, code, subaddress=subaddress)
            script.reports(bus, ME | BCR)
            script.good(bus)
    return script


# ---- 5.2.2.5 error injection


def wrong_command(fault):
    script = Script(f"5.2.2.5.1.1_{fault}", "5.2.2.5.1.1", f"Broadcast command word with {FAULTS[fault][0]}: no command.")
    for subaddress in SUBADDRESSES:
        script.case(f"subaddress {subaddress}")
        for count in COUNTS:
            bus = BUSES[subaddress % 2]
            script.good(bus)
            script.wrong(bus, spoil(fault, receive(subaddress, pattern(subaddress, count), address=ALL)), CS)
    for transmits, code in sorted(BROADCAST_MODES):
        script.case(f"mode code {code}")
        script.good("A")
        script.wrong("A", spoil(fault, mode(code, transmits, word=None if transmits else 1, address=ALL)), CS)
        script.good("B")
    return script


def wrong_data(fault):
    script = Script(f"5.2.2.5.1.2_{fault}", "5.2.2.5.1.2", f"Broadcast data word with {FAULTS[fault][0]}, in each position.")
    for subaddress in SUBADDRESSES:
        script.case(f"subaddress {subaddress}")
        for count in COUNTS if subaddress in (1, 30) else (2,):
            for place in range(1, count + 1):
                bus = BUSES[place % 2]
                words = spoil(fault, receive(subaddress, pattern(subaddress, count), address=ALL), place)
                if fault == "sync":
                    words[place] = command(OTHER, 0, 2, 1)
                script.good(bus)
                script.wrong(bus, words, ME | BCR)
    return script


def lengths():
    script = Script("5.2.2.5.2_each", "5.2.2.5.2",
                    "Broadcast receive with no data word, one too few, one too many; with a gap.")
    for subaddress in SUBADDRESSES:
        script.case(f"subaddress {subaddress}")
        for count in COUNTS:
            for given in wrong_lengths(count):
                bus = BUSES[given % 2]
                script.good(bus)
                script.wrong(bus, receive(subaddress, pattern(subaddress, given), count, ALL), ME | BCR)
            words = receive(subaddress, pattern(subaddress, count), address=ALL)
            script.good("A")
            script.message("A", words[:1 + count // 2], NR)
            script.wrong("A", words[1 + count // 2:], ME | BCR)
    return script


def mode_lengths():
    script = Script("5.2.2.5.2_mode", "5.2.2.5.2",
                    "Broadcast mode commands with a wrong number of data words: nothing is done.")
    for subaddress in MODE_SUBADDRESSES:
        for transmits, code in sorted(BROADCAST_MODES):
            script.case(f"mode code {code}, subaddress {subaddress}")
            for given in (1,) if transmits else (0, 2):
                script.good("A")
                script.wrong("A", mode(code, transmits, subaddress, address=ALL) + data([1] * given), ME | BCR)
                script.good("B")
    return script


# what is no broadcast transfer: own commands behind broadcast data, behind a broadcast mode command, with T/R 0
NO_BROADCAST_TRANSFER = [
    ["c f862", "d 0001", "c 2c62"], ["c f862", "d 0001", "d 0002", "c 2c62"], ["c fc01", "c 2c61"], ["c f811", "c 2c61"],
    ["c f861", "c 2861", "d 0001"], ["c f861", "c f861", "d 0001"], ["c f861", "c fc61"], ["c f861", "c fc01"],
    ["c f861", "d 0001", "c fc01"], ["c f861", "noise", "c 2c61"], ["c f861", with_wrong_parity("c 2c61")],
    ["c f862", "d 2c61"], ["c f862", with_wrong_parity("d 2c61")], ["c fc61", "c 2c61"],
]
NO_TRANSFER = [
    ["c 2862", "c 2c62"], ["c 2862", "d 0001", "c 2c62"], ["c 2862", "d 0001", "d 0002", "c 2c62"], ["c 2c62", "c 2c62"],
    ["c 2c62", "c 3062"],
]


def no_transfer():
    script = Script("5.2.2.5.2_no_transfer", "5.2.2.5.2, 5.2.1.3.5.4",
                    "Commands behind each other that are no transfer (4.3.3.6).")
    for kept, lists in ((ME | BCR, NO_BROADCAST_TRANSFER), (ME, NO_TRANSFER)):
        for words in lists:
            script.case(", ".join(words))
            for bus in BUSES:
                script.good(bus)
                script.wrong(bus, words, kept)
    return script
