"""Recordings that look random, judged by `rt1553-tool verify --any-subsystem` and by a decision of its own.

The model of the rules plays messages that look random, while a subsystem does something now and then. What a monitor on the buses sees of
each run is a recording, which has to be explained, and `rt1553` plays the script that `--witness` prints to the recorded words. Then each
is changed in one slot: a bit, the kind, silence or a word. Of some, data words are left open, and some have many gaps at one place. `decided` tells how many sightings are
explained then. Other runs are seen from some time on, with a pause in them: `--already-on` judges their first part that begins afresh,
and `rt1553` plays the scripts that explain some of them. For some runs `infer` has to propose a profile that explains them. Units with
such a subsystem also answer the acceptance test, right and with a changed reply. A unit that resets or tests itself may be silent then."""

import functools
import random
import re
import tomllib

import play
import pytest
import random_scripts
import rules
from decided import AnySubsystem, explained, explained_later, fresh_part
from programs import Given, run, write_files

pytestmark = pytest.mark.slow
PROFILES = range(16)
RUNS, LATER_RUNS, SOME_RUNS, QUIET_RUNS, MESSAGES = 20_000, 5_000, 1_600, 128, 8
UNSEEN = ("write", "vector", "bit", "flag")
PAUSE = (("gap", "A"), ("gap", "A"), ("gap", "B"), ("gap", "B"), ("slot",))


# ---- recordings


@functools.lru_cache(maxsize=None)
def setup_of(number):
    """The terminal of a profile."""
    return play.setup_of(tomllib.loads(random_scripts.profile_of(number)))


def messages_of(setup, seed):
    """What plays messages that look random, and what is seen of them."""
    recording = []

    def note(event, answer):
        if event[0] not in UNSEEN:
            recording.append((event, answer if answer and answer[0] in ("status", "data") else None))

    return random_scripts.Messages(setup, (29, 30), seed, note), recording


def recorded(setup, seed):
    """A run, as it is seen."""
    messages, recording = messages_of(setup, seed)
    for _ in range(MESSAGES):
        messages.message()
    return recording


def recorded_later(setup, seed):
    """A run of a unit that was on before, as it is seen from some time on. It has a pause."""
    messages, recording = messages_of(setup, seed)
    for _ in range(MESSAGES):
        messages.message()
    while messages.terminal.reply:
        messages.take(("slot",))
    begin = random.Random(seed).randrange(len(recording) + 1)
    for event in PAUSE:
        messages.take(event)
    for _ in range(MESSAGES):
        messages.message()
    return recording[begin:]


def other_word(draw, sent):
    """Another word in place of one that was sent, or of none."""
    if sent is None:
        return (draw.choice(("status", "data")), draw.choice("AB"), draw.getrandbits(16))
    kind, bus, bits = sent
    flipped = [(kind, bus, bits ^ 1 << draw.randrange(16)) for _ in range(3)]
    return draw.choice([None, ("data" if kind == "status" else "status", bus, bits), (kind, rules.other_bus(bus), bits), *flipped])


def changed(recording, seed):
    """The recording, with another word in one slot; None where it has no slot."""
    draw = random.Random(seed)
    slots = [n for n, (event, _) in enumerate(recording) if event == ("slot",)]
    if not slots:
        return None
    at = draw.choice(slots)
    return [*recording[:at], (("slot",), other_word(draw, recording[at][1])), *recording[at + 1 :]]


def with_open_words(recording, seed):
    """The recording, with half of its data words left open: they have no bits."""
    draw = random.Random(seed)
    return [(event, (*sent[:2], None) if sent and sent[0] == "data" and draw.random() < 0.5 else sent) for event, sent in recording]


def whole_runs(number):
    """The runs of a profile."""
    return [recorded(setup_of(number), seed) for seed in range(number, RUNS, len(PROFILES))]


def some_runs(number):
    """The first of them."""
    return [recorded(setup_of(number), seed) for seed in range(number, SOME_RUNS, len(PROFILES))]


def opened(recordings, number):
    """The first of these recordings of a profile with words left open."""
    return [with_open_words(it, seed) for it, seed in zip(recordings, range(number, SOME_RUNS, len(PROFILES)))]


def open_runs(number):
    """The first runs of a profile with words left open."""
    return opened(some_runs(number), number)


def changed_runs(number):
    """The runs of a profile, each changed in one slot, and some of these with words left open."""
    others = [it for it in map(changed, whole_runs(number), range(number, RUNS, len(PROFILES))) if it]
    return others + opened(others, number)


def quiet(recording, seed):
    """The recording, with more gaps at one place than `verify` keeps behind a status word."""
    at = random.Random(seed).randrange(len(recording) + 1)
    return [*recording[:at], *[(("gap", bus), None) for bus in "AB" * 10_000], *recording[at:]]


def quiet_runs(number):
    """A few runs of a profile, as they are and changed, with many gaps at one place."""
    seeds = range(number, QUIET_RUNS, len(PROFILES))
    runs = [recorded(setup_of(number), seed) for seed in seeds]
    runs += [it for it in map(changed, runs, seeds) if it]
    return [quiet(it, seed) for seed, it in enumerate(runs)]


def later_runs(number):
    """The runs of a profile that are seen from some time on, as they are, changed, and with words left open."""
    seeds = range(number, LATER_RUNS, len(PROFILES))
    later = [recorded_later(setup_of(number), seed) for seed in seeds]
    later += [it for it in map(changed, later, seeds) if it]
    return later + opened(later, number)


def some_later_runs(number):
    """Each fifth of the runs that are seen from some time on."""
    return later_runs(number)[::5]


# ---- as scripts


def stated(sent):
    """The line of a word, of one that is left open its mask; and `nothing`."""
    if not sent:
        return "nothing"
    return f"{sent[1]} d ...." if sent[2] is None else play.answer_line(sent)


def script_of(recording):
    """A recording as a script: its lines, and the number of the line of each event."""
    lines, numbers = [], []
    for event, sent in recording:
        lines.append(random_scripts.line_of(event))
        numbers.append(len(lines))
        if sent:
            lines.append(f"{'#~' if sent[2] is None else '#>'} {stated(sent)}")
    return "".join(f"{line}\n" for line in lines), numbers


def write_recordings(folder, number, recordings):
    """Writes a profile and recordings, which are named by their numbers."""
    files = {str(n): script_of(it)[0] for n, it in enumerate(recordings)}
    write_files(folder, {"profile.toml": random_scripts.profile_of(number), **files})


def sent_of(line):
    """The word of a line, as `verify` prints it."""
    if found := re.fullmatch("([AB]) ([sd]) ([0-9a-f]{4})", line):
        return ("status" if found[2] == "s" else "data", found[1], int(found[3], 16))
    return None


# ---- what `verify` tells


def told_of(text, end=":"):
    """What is told of each recording, by its name."""
    told = {}
    for line in text.decode().splitlines():
        told.setdefault(line.partition(end)[0], []).append(line)
    return told


def unjudged(recording):
    """Why nothing is judged of a recording that is explained, or of a part of one; None where something is."""
    if any(sent for _, sent in recording):
        return None
    return "the script states no answer" if recording else "the script has no event"


# the bits of a status word behind its address, the first sent first (MIL-STD-1553B, 4.3.3.5.3)
BITS = (
    "message error", "instrumentation", "service request", "reserved bit 1", "reserved bit 2", "reserved bit 3", "broadcast command received",
    "busy", "subsystem flag", "dynamic bus control acceptance", "terminal flag",
)  # fmt: skip


def bits_told(recorded, sent):
    """The bits in which a status word that was recorded differs from that which the terminal sends."""
    told = []
    for mask, name in zip((1 << it for it in reversed(range(11))), BITS):
        if (recorded ^ sent) & mask:
            told.append(f"{name} is set" if recorded & mask else f"{name} is not" if told else f"{name} is not set")
    return ", ".join(told)


def word_fault(recorded, sent):
    """What is wrong with a unit that sent one word where the terminal sends another."""
    words = {"status": "a status word", "data": "a data word"}
    (kind, bus, bits), (kind_sent, bus_sent, bits_sent) = recorded, sent
    if bus != bus_sent:
        return "the reply is on the other bus"
    if kind != kind_sent:
        return f"{words[kind]} in place of {words[kind_sent]}"
    if kind == "data":
        return "another data word"
    return f"another status word: {bits_told(bits, bits_sent)}" if bits >> 11 == bits_sent >> 11 else f"another address: {bits >> 11}"


def too_short(explains, before, bus):
    """By how much a reply is too short behind some sightings: so many data words more are explained."""
    words = [(("slot",), ("data", bus, None))] * 33
    missing = explains([*before, *words]) - len(before)
    return f"the reply is too short by {missing} word{'s' if missing != 1 else ''}"


def slot_fault(explains, recording, sent):
    """What is wrong with a unit in the last of some sightings, where the terminal sends a word, or none."""
    recorded = recording[-1][1]
    if recorded and sent:
        return word_fault(recorded, sent)
    if recorded:
        return "no reply is due" if recorded[0] == "status" else "the reply is too long"
    return "no reply" if sent[0] == "status" else too_short(explains, recording[:-1], sent[1])


def command_of(recording, address):
    """The command of the message to which the last of some sightings belongs; None before the first to this address or to all terminals."""
    words = [event[2] for event, _ in recording if event[0] == "word"]
    commands = [word[1] for word in words if rules.is_valid(word) and word[0] == "c" and word[1] >> 11 in (address, 31)]
    return commands[-1] if commands else None


def message_told(command, address):
    """The message of a command, in the words of a test bench."""
    subaddress, low = command >> 5 & 31, command & 31
    to = "all RT" if command >> 11 == 31 else f"RT {address}"
    if subaddress in (0, 31):
        return f"{to} mode code {low}"
    return f"{to} {'transmit' if command >> 10 & 1 else 'receive'} {subaddress}, {low or 32} word{'s' if low != 1 else ''}"


def fault_told(explains, before, recording, sent, address):
    """What is wrong with a unit in the last of some sightings, behind others, and in which message."""
    command = command_of([*before, *recording], address)
    fault = slot_fault(explains, recording, sent)
    return fault if command is None else f"{fault}{' to' if fault == 'no reply' else ', in'} {message_told(command, address)}"


def check_told(judge, setup, recording, name, numbers, told, before=()):
    """This is what is to be told of a recording, of which so many sightings are explained as `judge` says, and others come before it."""
    explains, why = functools.partial(judge, setup), unjudged(recording)
    count = explains(recording)
    if count == len(recording):
        assert told == ([f"{name}: not judged: {why}"] if why else [])
        return
    event, sent = recording[count]
    found = re.fullmatch("(.*?): (.*): recorded (.*); the terminal sends (.*)", told[0]) if told else None
    assert found and [found[1], found[3], *told[1:]] == [f"{name}:{numbers[count]}", stated(sent), f"{name}: differences: 1"], told
    assert explains([*recording[:count], (event, sent_of(found[4]))]) == count + 1, f"{name}: this can't come: {found[4]}"
    assert found[2] == fault_told(explains, before, recording[: count + 1], sent_of(found[4]), setup.address), told


def verified(tool, folder, names, *options):
    """What `verify` tells of recordings, and with what warnings, by the name of each."""
    given = run(tool, "verify", "--any-subsystem", *options, "profile.toml", *names, folder=folder, timeout=600)
    warnings = b"".join(it for it in given.errors.splitlines(True) if not it.endswith(b": warning: the script states no answer\n"))
    return told_of(given.output), told_of(warnings)


def check_judged(build, folder, setup, recordings):
    """What is told of these recordings is what is to be told."""
    told, warnings = verified(build.tool, folder, map(str, range(len(recordings))))
    assert warnings == {}
    for n, recording in enumerate(recordings):
        check_told(explained, setup, recording, str(n), script_of(recording)[1], told.get(str(n), []))


def check_explained(build, folder, setup, recordings):
    """The same, where they are runs of the model: it explains them."""
    assert [explained(setup, it) for it in recordings] == [len(it) for it in recordings], "the model does not explain its own runs"
    check_judged(build, folder, setup, recordings)


def check_judged_later(build, folder, setup, recordings):
    """The same of recordings that begin later, and what part of each is judged."""
    told, parts = verified(build.tool, folder, map(str, range(len(recordings))), "--already-on")
    for n, recording in enumerate(recordings):
        begin, lines, name = fresh_part(setup, recording), script_of(recording)[1], str(n)
        if begin is None:
            assert (told[name], parts.get(name)) == ([f"{name}: not judged: no part begins afresh after a pause"], None)
        else:
            assert parts[name] == [f"{name}: judged after line {lines[begin - 1]}"]
            part = recording[begin:]
            check_told(explained_later, setup, part, name, lines[begin:], told.get(name, []), recording[:begin])


# ---- scripts that explain them


def lines_of(recording):
    """The lines of the events of a recording."""
    return [random_scripts.line_of(event) for event, _ in recording]


def witness_of(build, folder, name, *options):
    """The status with which a build explains a recording, the events of the script that it prints, and the words to which `rt1553` plays it."""
    made = run(build.tool, "verify", "--any-subsystem", "--witness", *options, "profile.toml", name, folder=folder)
    ran = run(build.rt1553, "run", "profile.toml", "/dev/stdin", stdin=made.output, folder=folder)
    events = [it for it in made.output.decode().splitlines() if not it.startswith(UNSEEN)]
    return made.status or ran.status, events, [it for it in ran.output.decode().splitlines() if not it.startswith("hand ")]


def check_words(lines, recording):
    """These lines are the recorded words; of one that is left open only its bus and kind count."""
    words = [stated(word) for _, word in recording if word]
    assert [line[: len(word.rstrip("."))] for line, word in zip(lines, words)] == [word.rstrip(".") for word in words[: len(lines)]]
    assert len(lines) == len(words)


def check_played(build, folder, _, recordings):
    """The script that explains each of these recordings has its events, and the program plays it to the recorded words."""
    for n, recording in enumerate(recordings):
        status, events, words = witness_of(build, folder, str(n))
        if unjudged(recording):
            assert status == 3, n
            continue
        assert (status, events) == (0, lines_of(recording)), n
        check_words(words, recording)


def check_inferred(build, folder, setup, recordings):
    """For each of these recordings a profile is proposed, which explains it."""
    for n, recording in enumerate(recordings):
        made = run(build.tool, "infer", str(n), "--address", str(setup.address), folder=folder)
        write_files(folder, {f"{n}.toml": made.output})
        ran = run(build.tool, "verify", "--any-subsystem", f"{n}.toml", str(n), folder=folder)
        assert (made.status, ran.status) == (0, 3 if unjudged(recording) else 0), n


def check_played_later(build, folder, setup, recordings):
    """The same as `check_played`, of recordings that begin later."""
    for n, recording in enumerate(recordings):
        check_one_played_later(build, folder, setup, recording, str(n))


def check_one_played_later(build, folder, setup, recording, name):
    """The script that explains a recording which began later shuts transmitters down and then has the events of the part that is judged,
    and the program plays it to the words of the part; or it isn't explained, or nothing is judged, and the status says so."""
    begin = fresh_part(setup, recording)
    part = recording[len(recording) if begin is None else begin :]
    status, events, words = witness_of(build, folder, name, "--already-on")
    if explained_later(setup, part) != len(part):
        assert status == 1, name
        return
    if unjudged(part):
        assert status == 3, name
        return
    # in subaddress 0, transmitter shutdown on the other bus
    shut = [line for bus in "AB" for line in (f"{bus} c {setup.address << 11 | 0x404:04x}", f"{bus} gap", "slot")]
    before = len(events) - len(part)
    assert (status, events[before:]) == (0, lines_of(part)), name
    assert events[:before] in ([], shut[:3], shut[3:], shut[3:] + shut[:3], shut), name
    # the first is answered; the second comes on a bus that is shut down by then
    check_words(words[min(before // 3, 1) :], part)


# ---- the acceptance test of a unit


def exchanges_of(script):
    """The events of an acceptance test, exchange by exchange."""
    exchanges = []
    for _, event in play.events_of(script):
        if event and event[0] == "word" and event[2][0] == "c":
            exchanges.append([])
        if event:
            exchanges[-1].append(event)
    return exchanges


def replies_of(setup, exchanges, seed):
    """What a unit replies to each exchange, while its subsystem does something now and then."""
    terminal, draw, replies = rules.Terminal(setup), random.Random(seed), []
    for events in exchanges:
        if draw.random() < 0.1:
            terminal.step(("flag", draw.choice(rules.FLAGS), draw.randrange(2)))
        answers = [terminal.step(it) for it in events]
        replies.append([it[2] for it in answers if it and it[0] in ("status", "data")])
    return replies


def changed_replies(draw, replies):
    """The replies, one of which has another last word, a word more or a word less."""
    at = draw.randrange(len(replies))
    reply = replies[at]
    if reply and draw.random() < 0.5:
        words = [*reply[:-1], reply[-1] ^ 1 << draw.randrange(16)]
    else:
        words = [*reply, draw.getrandbits(16)] if len(reply) < 33 else reply[:-1]
    return [*replies[:at], words, *replies[at + 1 :]]


def answered(setup, exchanges, replies):
    """How many exchanges some behaviour of the subsystem explains with these replies, and then how many words of the next."""
    terminal = AnySubsystem(setup)
    for number, (events, reply) in enumerate(zip(exchanges, replies)):
        for event in (it for it in events if it != ("slot",)):
            terminal.step(event)
        for at in range(max(len(reply), events.count(("slot",)))):
            sent = (("data" if at else "status"), "A", reply[at]) if at < len(reply) else None
            if not terminal.can_send(sent):
                return number, at
    return len(exchanges), 0


def check_unit(tool, folder, setup, exchanges, replies):
    """A build says of these replies to the acceptance test what is to be said."""
    rows = [f"{n},{' '.join(f'{word:04x}' for word in reply) or 'none'}" for n, reply in enumerate(replies, 1)]
    write_files(folder, {"results": "".join(f"{row}\n" for row in ["number,reply", *rows])})
    given = run(tool, "acceptance", "--against", "results", "--any-subsystem", "profile.toml", folder=folder)
    number, at = answered(setup, exchanges, replies)
    if number == len(exchanges):
        assert given == Given(0, f"some behaviour of the subsystem explains all {number} exchanges\n".encode(), b"")
        return
    found = re.match(r"(\d+): .*, word (\d+) can be .*\n", given.output.decode())
    assert found and (given.status, int(found[1]), int(found[2])) == (1, number + 1, at + 1), given


# ---- tables of a unit that is silent after a reset or a self test


SELF_TESTS = "address = 5\n[[mode]]\ncodes = 3\n"
WORDS, ROWS = "time,bus,sync,word", "time,bus,command,status"
RESET = ("0,A,c,2c08", "24,A,s,2800")
SELF_TEST = ("0,A,c,2c03", "24,A,s,2800")
# header and rows, options, and the status of the verdict: 0 passed, 1 failed
SILENCES = {
    "a reset": ((WORDS, *RESET, "1000,A,c,2c02"), (), 0),
    "a reset, and a message more": ((WORDS, *RESET, "1000,A,c,2c02", "1040,A,c,2c02", "1064,A,s,2820"), (), 0),
    "a reset, and a fault behind the next pause": ((WORDS, *RESET, "1000,A,c,2c02", "6000,A,c,2c05", "6024,A,s,2820"), (), 1),
    "a reset, and a message that is superseded": ((WORDS, *RESET, "1000,A,c,2c05", "1010,B,c,2c05", "1034,B,s,2820"), (), 0),
    "a reset, and a message with its reply": ((WORDS, *RESET, "1000,A,c,2c05", "1024,A,s,2820"), (), 1),
    "5.1 ms after a reset": ((WORDS, *RESET, "5144,A,c,2c02"), (), 1),
    "more than was asked for after a reset": ((WORDS, *RESET, "1000,A,c,2c02"), ("--after-reset", "500"), 1),
    "before a reset": ((WORDS, "0,A,c,2c02", "100,A,c,2c08", "124,A,s,2800"), (), 1),
    "no reset": ((WORDS, "0,A,c,2c05", "24,A,s,2800", "1000,A,c,2c02"), (), 1),
    "a reset of another": ((WORDS, "0,A,c,2c05", "24,A,s,2800", "500,A,c,3408", "524,A,s,3000", "1500,A,c,2c02"), (), 1),
    "a reset of all": ((WORDS, "0,A,c,2c05", "24,A,s,2800", "500,A,c,fc08", "1500,A,c,2c02"), (), 0),
    "a self test": ((WORDS, *SELF_TEST, "100000,A,c,2c02"), (), 0),
    "101 ms after a self test": ((WORDS, *SELF_TEST, "101000,A,c,2c02"), (), 1),
    "more than was asked for after a self test": ((WORDS, *SELF_TEST, "1000,A,c,2c02"), ("--after-self-test", "500"), 1),
    "a reset, by messages": ((ROWS, "0,A,2c08,2800", "1000,A,2c02,"), (), 0),
    "a reset, and a fault in a message more": ((ROWS, "0,A,2c08,2800", "1000,A,2c02,", "1060,A,2c02,2820"), (), 0),
    "5.2 ms after a reset, by messages": ((ROWS, "0,A,2c08,2800", "5200,A,2c02,"), (), 1),
}  # fmt: skip


@pytest.mark.parametrize("name", SILENCES)
def test_silence(shipped, name, tmp_path):
    rows, options, status = SILENCES[name]
    write_files(tmp_path, {"profile.toml": SELF_TESTS, "table.csv": "".join(f"{row}\n" for row in rows)})
    made = run(shipped.tool, "recording", "table.csv", "--address", "5", *options, folder=tmp_path)
    write_files(tmp_path, {"script": made.output})
    said = run(shipped.tool, "verify", "--any-subsystem", "profile.toml", "script", folder=tmp_path)
    assert (made.status, said.status) == (0, status), said


# ---- the tests, of each profile


KINDS = {
    "whole": (whole_runs, check_explained),
    "whole, played": (whole_runs, check_played),
    "inferred": (some_runs, check_inferred),
    "changed": (changed_runs, check_judged),
    "with open words": (open_runs, check_judged),
    "with open words, played": (open_runs, check_played),
    "with many gaps": (quiet_runs, check_judged),
    "later": (later_runs, check_judged_later),
    "later, played": (some_later_runs, check_played_later),
}


@pytest.mark.parametrize("kind", KINDS)
@pytest.mark.parametrize("number", PROFILES)
def test_recordings(shipped, number, kind, count_runs, tmp_path):
    recordings_of, check = KINDS[kind]
    recordings = recordings_of(number)
    write_recordings(tmp_path, number, recordings)
    check(shipped, tmp_path, setup_of(number), recordings)
    count_runs(len(recordings))


@pytest.mark.parametrize("number", PROFILES)
def test_units(shipped, number, count_runs, tmp_path):
    write_recordings(tmp_path, number, [])
    exchanges = exchanges_of(run(shipped.tool, "acceptance", "profile.toml", folder=tmp_path).output)
    draw, replies = random.Random(number), replies_of(setup_of(number), exchanges, number)
    for unit in [replies, changed_replies(draw, replies), changed_replies(draw, replies)]:
        check_unit(shipped.tool, tmp_path, setup_of(number), exchanges, unit)
    count_runs(3)
