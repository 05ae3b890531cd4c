"""5.2.1.7 the time-out of a transfer that the terminal receives, and every other error of one; by broadcast 5.2.2.5.

Each error is a list of words, noise and gaps, behind which comes a further gap.
"""

from script import (
    ALL, BCR, BUSES, CS, ME, NR, OWN, SR, SSF, Script, TF, held, receive, with_other_sync, with_wrong_parity,
)

WAITS = ["c 2842", "c 3442", "gap"]
WORDS = ["d 0001", "d 0002"]
ANSWER = ["c 3000", *WORDS]

ERRORS = {
    "silence: the second gap is the time-out": [*WAITS],
    "an answer after the time-out": [*WAITS, "gap", *ANSWER],
    "the status of another terminal": [*WAITS, "c 3800", *WORDS],
    "the status with data sync": [*WAITS, "d 3000", *WORDS],
    "the status with wrong parity": [*WAITS, with_wrong_parity("c 3000"), *WORDS],
    "noise for the status": [*WAITS, "noise", *WORDS],
    "no status before the words": [*WAITS, *WORDS],
    "the status twice": [*WAITS, "c 3000", *ANSWER],
    "the status alone, with message error": [*WAITS, "c 3400"],
    "the status alone, with busy": [*WAITS, "c 3008"],
    "wrong parity in the first word": [*WAITS, "c 3000", with_wrong_parity("d 0001"), "d 0002"],
    "wrong parity in the last word": [*WAITS, "c 3000", "d 0001", with_wrong_parity("d 0002")],
    "noise for the first word": [*WAITS, "c 3000", "noise", "d 0002"],
    "noise for the last word": [*WAITS, "c 3000", "d 0001", "noise"],
    "noise behind the last word": [*WAITS, *ANSWER, "noise"],
    "command sync in the first word": [*WAITS, "c 3000", "c 3001", "d 0002"],
    "command sync in the last word": [*WAITS, "c 3000", "d 0001", "c 3002"],
    "a word too few": [*WAITS, "c 3000", "d 0001"],
    "a word too many": [*WAITS, *ANSWER, "d 0003"],
    "a gap behind the status": [*WAITS, "c 3000", "gap", *WORDS],
    "a gap between the words": [*WAITS, "c 3000", "d 0001", "gap", "d 0002"],
    "noise before the status": [*WAITS, "noise", *ANSWER],
    "a transmit command behind the status": [*WAITS, "c 3000", "c 3c42", "gap", "c 3800", *WORDS],
    "a transmit command to this terminal behind the status": [*WAITS, "c 3000", "c 2c42"],
    "the transmit command with wrong parity": ["c 2842", with_wrong_parity("c 3442"), "gap"],
    "the transmit command with wrong parity, and yet an answer": ["c 2842", with_wrong_parity("c 3442"), "gap", *ANSWER],
    "the transmit command is noise": ["c 2842", "noise", "gap", *ANSWER],
    "the transmit command with data sync": ["c 2842", "d 3442", "gap", *ANSWER],
    "the second command receives": ["c 2842", "c 3042", "gap", *ANSWER],
    "a gap between the commands": ["c 2842", "gap", "c 3442", "gap", *ANSWER],
    "the transmit command is to all": ["c 2842", "c fc42", "gap", *ANSWER],
    "a third command": ["c 2842", "c 3442", "c 3c42", "gap", *ANSWER],
    "a word behind the commands": ["c 2842", "c 3442", "d 0001", "gap", *ANSWER],
}


def not_meant(command):
    """Where the receive command itself is wrong, the transfer is not for this terminal."""
    return {
        "the receive command with wrong parity": [with_wrong_parity(command), "c 3442", "gap", *ANSWER],
        "the receive command is noise": ["noise", "c 3442", "gap", *ANSWER],
        "the receive command with data sync": [with_other_sync(command), "c 3442", "gap", *ANSWER],
    }


def each_error(kept, address=OWN):
    """Each error with its words and the status that is kept after it."""
    command = receive(2, [], 2, address)[0]
    for title, items in ERRORS.items():
        yield title, [command if item == "c 2842" else item for item in items], kept
    for title, items in not_meant(command).items():
        yield title, items, CS


def families():
    yield errors()
    yield broadcast_errors()
    yield in_time()
    yield no_transfers()
    yield second_to_all()
    yield transmitter()


def failed(script, bus, items, kept):
    """A transfer with an error, and a right one after it."""
    script.good(bus)
    script.on(bus, *items)
    script.wrong(bus, [], kept)


def errors():
    script = Script("5.2.1.7_errors", "5.2.1.7", "RT-RT, receiver: each error of a transfer. No response, and message error.")
    for title, items, kept in each_error(ME):
        script.case(title)
        for bus in BUSES:
            failed(script, bus, items, kept)
            script.takes(bus, 2, [0x6161, 0x6262])
            script.reports(bus, CS)
    script.case("the transmit command is to this terminal itself")
    for bus in BUSES:
        failed(script, bus, ["c 2842", "c 2c42"], ME)
    return script


def broadcast_errors():
    script = Script("5.2.2.5_transfer_errors", "5.2.2.5.1.1, 5.2.2.5.1.2, 5.2.2.5.2",
                    "RT-RT to all, receiver: each error of a transfer. No response, and message error is kept.")
    for title, items, kept in each_error(ME | BCR, ALL):
        script.case(title)
        for bus in BUSES:
            failed(script, bus, items, kept)
            script.takes(bus, 2, [0x6161, 0x6262], address=ALL)
            script.reports(bus, BCR)
    return script


def in_time():
    script = Script("5.2.1.7_in_time", "5.2.1.7",
                    "RT-RT, receiver: the answer comes in time, whatever else its status says (30.9).")
    for bits in (0, TF, SSF, SR, SR | SSF | TF):
        script.case(f"status bits {bits:04x}")
        for bus in BUSES:
            script.takes(bus, 2, [0x6161, 0x6262], bits=bits)
            script.reports(bus, CS)
    return script


def no_transfers():
    script = Script("5.2.1.7_mode_commands", "5.2.1.7",
                    "A mode command with a transmit command to another terminal behind it is no transfer (4.3.3.6).")
    for first in ("c 2811", "c 2c01", "c 2c10"):
        for second in ("c 3450", "c 3410"):
            script.case(f"{first} and {second}")
            for bus in BUSES:
                script.good(bus)
                script.message(bus, [first, second], NR)
                script.wrong(bus, ["c 3000", "d 0001"])
    return script


def second_to_all():
    script = Script("5.2.1.7_second_to_all", "5.2.1.7",
                    "Without the broadcast option: the transmit command has address 31, and so has what answers.",
                    "no_broadcast")
    for bus in BUSES:
        script.case(f"bus {bus}")
        script.good(bus)
        script.on(bus, "c 2842", "c fc42", "gap")
        script.wrong(bus, ["c f800", *WORDS])
    return script


def transmitter():
    script = Script("5.2.1.7_transmitter", "5.2.1.7",
                    "RT-RT, transmitter: the receiver's part is not this terminal's business, its own command is.")
    for title, first in (("wrong parity in the other's command", with_wrong_parity("c 3042")),
                         ("noise in its place", "noise"), ("a gap behind it", "c 3042")):
        script.case(title)
        for bus in BUSES:
            script.on(bus, first, *(["gap"] if "gap" in title else []))
            script.message(bus, ["c 2c42"], CS, held(2, 2))
    script.case("the own command with wrong parity")
    for bus in BUSES:
        script.good(bus)
        script.wrong(bus, ["c 3042", with_wrong_parity("c 2c42")], CS)
    script.case("a data word behind the own command")
    for bus in BUSES:
        script.good(bus)
        script.wrong(bus, ["c 3042", "c 2c42", "d 0001"])
    for title, words in (("the receiver keeps silent", []), ("it answers message error", ["c 3400"])):
        script.case(title)
        for bus in BUSES:
            script.message(bus, ["c 3042", "c 2c42"], CS, held(2, 2))
            script.message(bus, words, NR)
            script.reports(bus, CS)
    return script
