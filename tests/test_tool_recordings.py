"""Recordings of a bus: `verify --any-subsystem`, `coverage` and `infer` of `rt1553-tool`, and `recording`, which makes them of tables."""

import json

import pytest
from programs import Row, check_row, run, with_files, write_files
from schemas import misfits

ASK = "A c 2c02\nA gap\nslot\n"
PAUSE = "A gap\nA gap\nB gap\nB gap\nslot\n"
UNHEARD = "slots in which the unit may be silent: 1; behind each nothing is judged up to the next pause\n"
TOO_MANY = "not judged: gaps that may have come leave too many ways open\n"
CROWDED = "stretches that leave too many ways open: 1; none is judged, nor what follows it up to the next pause\n"
AGAIN = "A c 2c05\nA gap\nslot\n"
FLAGS = "A c 2c61\nA gap\nslot\n#> A s 2d00\nA c 2c61\nA gap\nslot\n#> A s 2c05\n"
LEFT_OUT = "hands: warning: what is handed over is left out: a bus does not show it\n"
NONE_FOUND = "{0}: no profile is found that explains this recording\n"
# a transfer to terminal 5 whose transmitter is late
LATE = "A c 2821\nA c 3421\nA gap\n#? A gap\nA c 3000\nA d 0001\nA gap\n"
# a message to terminal 5 without its data word, which may have ended
CUT = "A c 2821\n#? A gap\n"
# the same, which a command on the other bus ends, before its gap or behind it
BESIDE = "A c 2822\nA d 0001\n#? A gap\nB c 2c02\nA gap\nB gap\nslot\n"
# more ways than are followed, and a status word
MANY = f"{CUT * 7}{PAUSE}{ASK}#> A s 2c00\n"
# over 1,048,576 bytes: it is read on while it is judged
LONG = f"{ASK}#> A s 2800\n" * 40000
# more gaps than are kept behind a status word, and a broadcast before them
QUIET = "A gap\n" * 20000
TOLD_ALL = f"A c f881\nA d 0001\n{QUIET}"
FAULT = f"{ASK}#> A s 2820\n"
# the last line of what `recording` writes if it refuses its table
EARLY_END = "#! row 4 was refused; rows written: 2\n"
ENDS_EARLY = "early:5: error: the recording ends early: a row of its table was refused\n"

RECORDINGS = with_files(
    {
        "five": "address = 5\n",
        "flags": FLAGS,
        "reserved": f"{ASK}#> A s 2800\n{ASK}#> A s 2820\n{ASK}#> A s 2840\n",
        "silent": ASK,
        "unasked": "slot\n#> B d 0001\n",
        "acts": f"# by hand\nflag busy 1\n{ASK}#> A s 2808\n",
        "masks": f"{ASK}#~ A s 2...\n",
        "tests": "address = 5\n[[mode]]\ncodes = 3\n",
        "hands": "A c 2c03\nA gap\n#> hand self-test\nslot\n#> A s 2800\n",
        "masked": "A c 2c03\nA gap\n#~ hand self-test\nslot\n#> A s 2800\n",
        "capital": f"{ASK}#> A s 28AB\n",
        "on": f"{ASK}#> A s 2d04\n{PAUSE}{AGAIN}#> A s 2804\n",
        "worse": f"{PAUSE}{AGAIN}#> A s 2820\n",
        "back": f"{PAUSE}{ASK}#> A s 2900\n{PAUSE}{AGAIN}#> A s 2800\n",
        "shut": f"{PAUSE}{AGAIN}",
        "ends": f"{ASK}#> A s 2800\n{PAUSE}",
        "others": "A c 3402\nA gap\nslot\n",
        "nothing": "# nothing\n",
        "off": f"{PAUSE}B c 2c05\nB gap\nslot\n{AGAIN}#> A s 2800\n",
        "sends": 'address = 5\n[[rule]]\ndirection = "transmit"\nsubaddresses = "3"\n',
        "open": "A c 2c61\nA gap\nslot\n#> A s 2800\nslot\n#~ A d ....\n",
        "withheld": "A c 2c61\nA gap\nslot\n#> A s 2808\nslot\n#~ A d ....\n",
        "early": f"{ASK}#> A s 2800\n{EARLY_END}",
        "shell": f"#!/bin/sh\n#! rows\n{ASK}#> A s 2800\n",
        "receives": 'address = 5\n[[rule]]\ndirection = "receive"\nsubaddresses = "1"\n',
        "gave": f"{LATE}slot\n{ASK}#> A s 2c00\n",
        "waited": f"{LATE}slot\n#> A s 2800\n{ASK}#> A s 2800\n",
        "neither": f"{LATE}slot\n#> A s 2c00\n",
        "mistyped": f"{ASK}#> A s 2800\n#? A c 2c02\n",
        "unheard": f"{ASK}#> A s 2800\nA c 2c02\nA gap\n#? slot\n{ASK}#> A s 2801\n",
        "afresh": f"{ASK}#> A s 2800\nA c 2c02\nA gap\n#? slot\n{ASK}#> A s 2801\n{PAUSE}A c 2c08\nA gap\nslot\n#> A s 2820\n",
        "deaf": f"A c 2c02\nA gap\n#? slot\n{ASK}#> A s 2800\n",
        "stated": f"{ASK}#> A s 2800\n#? A gap\n#> hand sync\n",
        "ways": "A gap\n#? A gap\n" * 3 + f"{ASK}#> A s 2800\n",
        "before": f"{BESIDE}#> B s 2c00\n",
        "behind": f"{BESIDE}#> B s 2800\n",
        "most": f"{CUT * 6}{PAUSE}{ASK}#> A s 2c00\n",
        "more": MANY,
        "right": f"{MANY}{PAUSE}{AGAIN}#> A s 2800\n",
        "wrong": f"{MANY}{PAUSE}{AGAIN}#> A s 2820\n",
        "crowds": f"{MANY}{PAUSE}{AGAIN}#> A s 2800\n" * 2 + f"{CUT * 7}",
        "whole": 'address = 5\nbroadcast = true\n[[rule]]\ndirection = "both"\nsubaddresses = "1-30"\ncounts = "1-32"\nto = "both"\n',
        "names": "kind,value,code,name\naddress,5,,\nmode,,2,status\n",
        **{sent.replace(" ", ""): f"# 100.5\nA c 2c61\nA gap\nslot\n#> {sent}\n"
           for sent in ("A s 2a00", "A s 2800", "A s 3c00", "B s 2c00", "B d 0001", "A d 0001")},
        "kept": f"A c 2c61\nA gap\nslot\n#> A s 2c08\n{ASK}#> A s 2810\n",
        "data": "# 7\nA c 2c64\nA gap\nslot\n#> A s 2800\nslot\n#> A s 0001\n",
        "other": "# 7\nA c 2fc1\nA gap\nslot\n#> A s 2800\nslot\n#> B d 0000\n",
        "short": "# 7\nA c 2c60\nA gap\nslot\n#> A s 2800\nslot\n",
        "all": "# 7\nA c f881\nA d 0001\nA gap\nslot\n#> A s 2810\n",
        "timed": f"# 1000.25\n{ASK}",
        "named": f"# a first message\n{ASK}",
        "late": f"# 100\n{ASK}# 140\n# later than no response: A s 2800\n",
        "later": f"# 100\n{ASK}A gap\n# 140\n# later than no response: A s 2800\n",
        "latest": f"# 100\n{ASK}# 140\n# later than no response by 8 us: A s 2800\n",
        "shorter": "# 7\nA c 2c62\nA gap\nslot\n#> A s 2800\nslot\n#> A d 0001\nslot\n",
    },
    Row("a unit that gave up waiting, perhaps", "verify --any-subsystem receives gave"),
    Row("one that waited, perhaps", "verify --any-subsystem receives waited"),
    Row("one that did neither", "verify --any-subsystem receives neither", 1,
        "neither:8: no reply is due, in RT 5 receive 1, 1 word: recorded A s 2c00; the terminal sends nothing\nneither: differences: 1\n"),
    Row("a gap that came, by a script", "verify --any-subsystem --witness receives gave", 0,
        f"{LATE.replace('#? ', '')}slot\n{ASK}"),
    Row("a gap that did not come, by a script", "verify --any-subsystem --witness receives waited", 0,
        LATE.replace("#? A gap\n", "") + f"slot\n{ASK}"),
    Row("what else may have come", "verify --any-subsystem five mistyped", 2, errors="mistyped: script: line 5\n"),
    Row("a unit that may have been silent", "verify --any-subsystem --summary five unheard", 0,
        "unheard: passed (answers: 2)\nno clause: 1 of 1 scripts pass\nall: 1 of 1 scripts pass\n", f"unheard: {UNHEARD}"),
    Row("what it did behind the next pause", "verify --any-subsystem five afresh", 1,
        "afresh:19: another status word: reserved bit 3 is set, in RT 5 mode code 8: recorded A s 2820; the terminal sends A s 2800\nafresh: differences: 1\n",
        f"afresh: {UNHEARD}"),
    Row("the same, of a unit that was on", "verify --any-subsystem --already-on five afresh", 1,
        "afresh:19: another status word: reserved bit 3 is set, in RT 5 mode code 8: recorded A s 2820; the terminal sends A s 2800\nafresh: differences: 1\n",
        f"afresh: judged after line 16\nafresh: {UNHEARD}"),
    Row("no word before it", "verify --any-subsystem five deaf", 3, "deaf: not judged: the script states no answer\n", f"deaf: {UNHEARD}"),
    Row("what the subsystem did there", "verify --any-subsystem --witness five unheard", 2,
        errors=f"unheard: {UNHEARD}unheard: recording: what the unit did is not known behind a slot in which it may have been silent\n"),
    Row("what is handed over in a gap that may have come", "verify --any-subsystem five stated", 2,
        errors="stated:6: error: the event before it cannot have this answer\n"),
    Row("gaps that may have come and do nothing", "verify --any-subsystem --summary five ways", 0,
        "ways: passed (answers: 1)\nno clause: 1 of 1 scripts pass\nall: 1 of 1 scripts pass\n"),
    Row("64 ways", "verify --any-subsystem receives most"),
    Row("more ways", "verify --any-subsystem receives more", 3, f"more: {TOO_MANY}", f"more: {CROWDED}"),
    Row("what it did behind them", "verify --any-subsystem receives right", 3, f"right: {TOO_MANY}", f"right: {CROWDED}"),
    Row("a fault behind them", "verify --any-subsystem receives wrong", 1,
        "wrong:31: another status word: reserved bit 3 is set, in RT 5 mode code 5: recorded A s 2820; the terminal sends A s 2800\nwrong: differences: 1\n",
        f"wrong: warning: gaps that may have come leave too many ways open\nwrong: {CROWDED}"),
    Row("more ways at any time", "verify --any-subsystem --already-on receives wrong", 1,
        "wrong:31: another status word: reserved bit 3 is set, in RT 5 mode code 5: recorded A s 2820; the terminal sends A s 2800\nwrong: differences: 1\n",
        "wrong: judged after line 28\n"),
    Row("more ways again and again", "verify --any-subsystem receives crowds", 3, f"crowds: {TOO_MANY}", f"crowds: {CROWDED.replace('1;', '3;')}"),
    Row("what the subsystem did, with more ways", "verify --any-subsystem --witness receives more", 3, f"more: {TOO_MANY}", f"more: {CROWDED}"),
    Row("a gap that may have come, in a test", "verify five ways"),
    Row("a gap that came before a command on the other bus, or behind it", "verify --any-subsystem --summary receives before behind", 0,
        "before: passed (answers: 1)\nbehind: passed (answers: 1)\nno clause: 2 of 2 scripts pass\nall: 2 of 2 scripts pass\n"),
    Row("a long recording", "verify --any-subsystem --summary five long", 0,
        "long: passed (answers: 40000)\nno clause: 1 of 1 scripts pass\nall: 1 of 1 scripts pass\n", files={"long": LONG}),
    Row("a fault at its end", "verify --any-subsystem five long", 1,
        "long:160003: another status word: reserved bit 3 is set, in RT 5 mode code 2: recorded A s 2820; the terminal sends A s 2800\nlong: differences: 1\n", files={"long": LONG + FAULT}),
    Row("a line at its end that is refused", "verify --any-subsystem five long", 2,
        errors="long:160002: error: the event before it cannot have this answer\n", files={"long": f"{LONG}A c 2c02\n#> A s 2820\n"}),
    Row("the kept status behind many gaps, of a subsystem that was busy", "verify --any-subsystem whole quiet", files={"quiet": f"{TOLD_ALL}{ASK}#> A s 2818\n"}),
    Row("a fault behind many gaps", "verify --any-subsystem whole quiet", 1,
        "quiet:20005: another status word: reserved bit 3 is set, in RT 5 mode code 2: recorded A s 2838; the terminal sends A s 2818\nquiet: differences: 1\n", files={"quiet": f"{TOLD_ALL}{ASK}#> A s 2838\n"}),
    Row("a fault among many gaps", "verify --any-subsystem whole quiet", 1,
        "quiet:20001: the reply is too long: recorded A d 0001; the terminal sends nothing\nquiet: differences: 1\n", files={"quiet": f"{QUIET}slot\n#> A d 0001\n{QUIET}"}),
    Row("a long recording that began later", "verify --any-subsystem --already-on five long", 1,
        "long:160012: another status word: reserved bit 3 is set, in RT 5 mode code 2: recorded A s 2820; the terminal sends A s 2800\nlong: differences: 1\n",
        "long: judged after line 5\n", files={"long": f"{PAUSE}{AGAIN}#> A s 2800\n{LONG}{FAULT}"}),
    Row("flags that a subsystem can have", "verify --any-subsystem five flags"),
    Row("the same as a test", "verify five flags", 1,
        "flags:3: expected A s 2d00, came A s 2c00\nflags:7: expected A s 2c05, came A s 2c00\nflags: differences: 2\n"),
    Row("the first line that nothing explains", "verify --any-subsystem five reserved", 1,
        "reserved:7: another status word: reserved bit 3 is set, in RT 5 mode code 2: recorded A s 2820; the terminal sends A s 2800\nreserved: differences: 1\n"),
    Row("no word where one has to come", "verify --any-subsystem five silent", 1,
        "silent:3: no reply to RT 5 mode code 2: recorded nothing; the terminal sends A s 2800\nsilent: differences: 1\n",
        "silent: warning: the script states no answer\n"),
    Row("a word where none can come", "verify --any-subsystem five unasked", 1,
        "unasked:1: the reply is too long: recorded B d 0001; the terminal sends nothing\nunasked: differences: 1\n"),
    Row("what the subsystem does in a recording", "verify --any-subsystem five acts", 2,
        errors="acts:2: error: what the subsystem does is not seen in a recording\n"),
    Row("a mask of a status word in a recording", "verify --any-subsystem five masks", 2,
        errors='masks:3: error: a recording states each word whole, or leaves a data word open, as in "#~ A d ...."\n'),
    Row("a hand-over in a recording", "verify --any-subsystem --summary tests hands", 0,
        "hands: passed (answers: 1)\nno clause: 1 of 1 scripts pass\nall: 1 of 1 scripts pass\n", LEFT_OUT),
    Row("a mask of a hand-over in a recording", "verify --any-subsystem tests masked", 0, "", LEFT_OUT.replace("hands", "masked")),
    Row("a hand-over, by a script", "verify --any-subsystem --witness tests hands", 0, "A c 2c03\nA gap\nslot\n", LEFT_OUT),
    Row("capital digits in a recording", "verify --any-subsystem five capital", 1,
        "capital:3: another status word: reserved bit 1 is set, reserved bit 3 is set, busy is set, dynamic bus control acceptance is set, "
        "terminal flag is set, in RT 5 mode code 2: recorded A s 28ab; the terminal sends A s 2800\ncapital: differences: 1\n"),
    Row("a recording and a test on the bus", "verify --any-subsystem --bus-only five flags", 3, errors="arguments: --bus-only and --any-subsystem exclude each other\n"),
    Row("the script that explains a recording", "verify --any-subsystem --witness five flags", 0,
        "flag service 1\nA c 2c61\nA gap\nslot\nflag service 0\nflag subsystem 1\nflag terminal 1\nA c 2c61\nA gap\nslot\n"),
    Row("a recording that nothing explains, by a script", "verify --any-subsystem --witness five reserved", 1,
        "reserved:7: another status word: reserved bit 3 is set, in RT 5 mode code 2: recorded A s 2820; the terminal sends A s 2800\nreserved: differences: 1\n"),
    Row("no recording, by a script", "verify --any-subsystem --witness five acts", 2,
        errors="acts:2: error: what the subsystem does is not seen in a recording\n"),
    Row("a test, by a script", "verify --witness five flags", 3, errors="arguments: --witness is for --any-subsystem\n"),
    Row("two recordings, by a script", "verify --any-subsystem --witness five flags reserved", 3, errors="arguments: --witness takes one profile and one script\n"),
    Row("a summary and a script", "verify --any-subsystem --witness --summary five flags", 3, errors="arguments: --witness excludes --summary and the formats but text\n"),
    Row("a date and a script", "verify --any-subsystem --witness --date 2026-11-28T12:00:00Z five flags", 3, errors="arguments: --witness excludes --profiles and --date\n"),
    Row("a folder of profiles and a script", "verify --any-subsystem --witness --profiles . flags", 3, errors="arguments: --witness takes one profile and one script\n"),
    Row("a report and a script", "verify --any-subsystem --witness --format json five flags", 3, errors="arguments: --witness excludes --summary and the formats but text\n"),
    Row("a unit that was on", "verify --any-subsystem --already-on five on", errors="on: judged after line 9\n"),
    Row("the same from power-up", "verify --any-subsystem five on", 1, "on:3: another status word: message error is set, service request is set, subsystem flag is set, in RT 5 mode code 2: recorded A s 2d04; the terminal sends A s 2800\non: differences: 1\n"),
    Row("a line that nothing explains, whatever came before", "verify --any-subsystem --already-on five worse", 1,
        "worse:8: another status word: reserved bit 3 is set, in RT 5 mode code 5: recorded A s 2820; the terminal sends A s 2800\nworse: differences: 1\n",
        "worse: judged after line 5\n"),
    Row("a part that asks for an earlier status", "verify --any-subsystem --already-on five back", errors="back: judged after line 14\n"),
    Row("a transmitter that was shut down", "verify --any-subsystem --already-on five shut", 3,
        "shut: not judged: the script states no answer\n", "shut: judged after line 5\n"),
    Row("a transmitter that was shut down, on one bus", "verify --any-subsystem --already-on five off", errors="off: judged after line 5\n"),
    Row("no pause", "verify --any-subsystem --already-on five flags", 3,
        "flags: not judged: no part begins afresh after a pause\n"),
    Row("no pause, by a script", "verify --any-subsystem --already-on --witness five flags", 3,
        "flags: not judged: no part begins afresh after a pause\n"),
    Row("no pause, in a summary", "verify --any-subsystem --already-on --summary five flags on worse", 1,
        "flags: not judged: no part begins afresh after a pause\non: passed (answers: 2)\nworse:8: another status word: reserved bit 3 is set, in RT 5 mode code 5: recorded A s 2820; the terminal sends A s 2800\n"
        "worse: differences: 1\nno clause: 1 of 3 scripts pass, 1 not judged\nall: 1 of 3 scripts pass, 1 not judged\n",
        "on: judged after line 9\nworse: judged after line 5\n"),
    Row("a pause at the end", "verify --any-subsystem --already-on five ends", 3,
        "ends: not judged: the script has no event\n", "ends: judged after line 9\n"),
    Row("a recording without a word of the unit", "verify --any-subsystem five others", 3, "others: not judged: the script states no answer\n"),
    Row("a recording without an event", "verify --any-subsystem five nothing", 3, "nothing: not judged: the script has no event\n"),
    Row("a test that began later", "verify --already-on five on", 3, errors="arguments: --already-on is for --any-subsystem\n"),
    Row("a witness of a recording that began later", "verify --any-subsystem --already-on --witness five on", 0,
        "flag subsystem 1\nA c 2c05\nA gap\nslot\n",
        "on: judged after line 9\n"),
    Row("a witness of a transmitter that was shut down", "verify --any-subsystem --already-on --witness five off", 0,
        "A c 2c04\nA gap\nslot\nB c 2c05\nB gap\nslot\nA c 2c05\nA gap\nslot\n",
        "off: judged after line 5\n"),
    Row("a data word that is left open", "verify --any-subsystem sends open"),
    Row("one that cannot come", "verify --any-subsystem sends withheld", 1,
        "withheld:5: the reply is too long, in RT 5 transmit 3, 1 word: recorded A d ....; the terminal sends nothing\nwithheld: differences: 1\n"),
    Row("another status word, by its bits", "verify --any-subsystem five As2a00 As2800 kept", 1,
        "As2a00:4: another status word: message error is not set, instrumentation is set, in RT 5 transmit 3, 1 word at 100.5: "
        "recorded A s 2a00; the terminal sends A s 2c00\nAs2a00: differences: 1\n"
        "As2800:4: another status word: message error is not set, in RT 5 transmit 3, 1 word at 100.5: "
        "recorded A s 2800; the terminal sends A s 2c00\nAs2800: differences: 1\n"
        "kept:7: another status word: message error is not set, broadcast command received is set, busy is not, in RT 5 mode code 2: "
        "recorded A s 2810; the terminal sends A s 2c08\nkept: differences: 1\n"),
    Row("another address, bus and kind", "verify --any-subsystem five As3c00 Bs2c00 Bd0001 Ad0001", 1,
        "As3c00:4: another address: 7, in RT 5 transmit 3, 1 word at 100.5: recorded A s 3c00; the terminal sends A s 2c00\n"
        "As3c00: differences: 1\n"
        "Bs2c00:4: the reply is on the other bus, in RT 5 transmit 3, 1 word at 100.5: recorded B s 2c00; the terminal sends A s 2c00\n"
        "Bs2c00: differences: 1\n"
        "Bd0001:4: the reply is on the other bus, in RT 5 transmit 3, 1 word at 100.5: recorded B d 0001; the terminal sends A s 2c00\n"
        "Bd0001: differences: 1\n"
        "Ad0001:4: a data word in place of a status word, in RT 5 transmit 3, 1 word at 100.5: recorded A d 0001; the terminal sends A s 2c00\n"
        "Ad0001: differences: 1\n"),
    Row("data words", "verify --any-subsystem whole data other short shorter", 1,
        "data:6: a status word in place of a data word, in RT 5 transmit 3, 4 words at 7: recorded A s 0001; the terminal sends A d 0000\n"
        "data: differences: 1\n"
        "other:6: the reply is on the other bus, in RT 5 transmit 30, 1 word at 7: recorded B d 0000; the terminal sends A d 0000\n"
        "other: differences: 1\n"
        "short:6: the reply is too short by 32 words, in RT 5 transmit 3, 32 words at 7: recorded nothing; the terminal sends A d 0000\n"
        "short: differences: 1\n"
        "shorter:8: the reply is too short by 1 word, in RT 5 transmit 3, 2 words at 7: recorded nothing; the terminal sends A d 0000\n"
        "shorter: differences: 1\n"),
    Row("a reply to a broadcast", "verify --any-subsystem whole all", 1,
        "all:5: no reply is due, in all RT receive 4, 1 word at 7: recorded A s 2810; the terminal sends nothing\nall: differences: 1\n"),
    Row("a comment that is a time, and one that is none", "verify --any-subsystem five timed named", 1,
        "timed:4: no reply to RT 5 mode code 2 at 1000.25: recorded nothing; the terminal sends A s 2800\ntimed: differences: 1\n"
        "named:4: no reply to RT 5 mode code 2: recorded nothing; the terminal sends A s 2800 # a first message\nnamed: differences: 1\n",
        "timed: warning: the script states no answer\nnamed: warning: the script states no answer\n"),
    Row("the name of a message", "verify --any-subsystem --names names five timed As2800", 1,
        'timed:4: "status": no reply at 1000.25: recorded nothing; the terminal sends A s 2800\ntimed: differences: 1\n'
        "As2800:4: another status word: message error is not set, in RT 5 transmit 3, 1 word at 100.5: "
        "recorded A s 2800; the terminal sends A s 2c00\nAs2800: differences: 1\n",
        "timed: warning: the script states no answer\n"),
    Row("a reply that came too late", "verify --any-subsystem five late later latest", 1,
        "late:4: the reply is too late, in RT 5 mode code 2 at 100: recorded nothing; the terminal sends A s 2800\nlate: differences: 1\n"
        "later:4: no reply to RT 5 mode code 2 at 100: recorded nothing; the terminal sends A s 2800\nlater: differences: 1\n"
        "latest:4: the reply is too late by 8 us, in RT 5 mode code 2 at 100: recorded nothing; the terminal sends A s 2800\nlatest: differences: 1\n",
        "".join(f"{name}: warning: the script states no answer\n" for name in ("late", "later", "latest"))),
    Row("any subsystem without results", "acceptance --any-subsystem five", 3, errors="arguments: --format junit and html, --any-subsystem and --date are for --against\n"),
    Row("a recording that ends early", "verify --any-subsystem five early", 2, errors=ENDS_EARLY),
    Row("one that ends early, as a test", "verify five early", 2, errors=ENDS_EARLY),
    Row("one that ends early, counted", "coverage five early", 2, errors=ENDS_EARLY),
    Row("one that ends early, for a profile", "infer early --address 5", 2, errors=ENDS_EARLY),
    Row("one that ends early, with its answers", "answers five early", 2, errors=ENDS_EARLY),
    Row("one that ends early, played", "run five early", 0, "A s 2800\n"),
    Row("a long recording that ends early", "verify --any-subsystem five long", 2,
        errors="long:160001: error: the recording ends early: a row of its table was refused\n", files={"long": LONG + EARLY_END}),
    Row("a shell's line in a recording", "verify --any-subsystem five shell"),
    Row("several recordings", "verify --any-subsystem --summary five flags reserved acts", 2,
        "flags: passed (answers: 2)\nreserved:7: another status word: reserved bit 3 is set, in RT 5 mode code 2: recorded A s 2820; the terminal sends A s 2800\nreserved: differences: 1\nno clause: 1 of 3 scripts pass\n"
        "all: 1 of 3 scripts pass\n",
        "acts:2: error: what the subsystem does is not seen in a recording\n"),
)

# what `coverage` counts, and which profile `infer` proposes
SHOWN_FILES = {
    "five": "address = 5\n",
    "came": f"{ASK}#> A s 2800\n",
    # the first is superseded by the second, that by the third, and the fourth is open
    "left": "A c 2821\nA d 0001\nB c 2c02\nA gap\nA c 2c02\nA gap\nslot\n#> A s 2800\nA c 2c04\n",
    "flags": FLAGS,
    "reserved": f"{ASK}#> A s 2820\n",
    "acts": f"flag busy 1\n{ASK}#> A s 2808\n",
    "messages": "A mode 5 2\n",
    "tests": "address = 5\n[[mode]]\ncodes = 3\n",
    "hands": "A c 2c03\nA gap\n#> hand self-test\nslot\n#> A s 2800\n",
}
SHOWN = with_files(
    SHOWN_FILES,
    Row("what came", "coverage five came", 0,
        "mode code 2, transmit status word           1 done\nmode code 4, transmitter shutdown           never\n"
        "mode code 5, override transmitter shutdown  never\nmode code 8, reset remote terminal          never\n\n"
        "legal messages: 1 of 4 came, 1 done\nillegal messages: 0 came\n"),
    Row("what a later command superseded, and what the end left open", "coverage five left", 0,
        "mode code 2, transmit status word           1 done, 1 superseded\nmode code 4, transmitter shutdown           1 open\n"
        "mode code 5, override transmitter shutdown  never\nmode code 8, reset remote terminal          never\n\nillegal\n"
        "receive 1                                   1: 1 superseded\n\nlegal messages: 2 of 4 came, 1 done\nillegal messages: 1 came\n"),
    Row("what came in two recordings, and what is illegal", "coverage five came flags", 0,
        "mode code 2, transmit status word           1 done\nmode code 4, transmitter shutdown           never\n"
        "mode code 5, override transmitter shutdown  never\nmode code 8, reset remote terminal          never\n\nillegal\n"
        "transmit 3                                  1: 2 illegal\n\nlegal messages: 1 of 4 came, 1 done\nillegal messages: 1 came\n"),
    Row("what came, as JSON", "coverage --format json five flags", 0,
        '{"came":0,"done":0,"legal":[{"message":"mode code","code":2,"mode":"transmit status word","done":0,"busy":0,"illegal":0,"in_error":0,"superseded":0,"open":0},'
        '{"message":"mode code","code":4,"mode":"transmitter shutdown","done":0,"busy":0,"illegal":0,"in_error":0,"superseded":0,"open":0},{"message":"mode code",'
        '"code":5,"mode":"override transmitter shutdown","done":0,"busy":0,"illegal":0,"in_error":0,"superseded":0,"open":0},{"message":"mode code","code":8,'
        '"mode":"reset remote terminal","done":0,"busy":0,"illegal":0,"in_error":0,"superseded":0,"open":0}],"illegal":[{"command":"2c61","message":"transmit",'
        '"subaddress":3,"count":1,"done":0,"busy":0,"illegal":2,"in_error":0,"superseded":0,"open":0}]}\n'),
    Row("a recording of the subsystem, counted", "coverage five acts", 2,
        errors="acts:1: error: what the subsystem does is not seen in a recording\n"),
    Row("a profile of a recording", "infer came --address 5", 0,
        "# Terminal 5, as a recording shows it: this profile explains the recording.\n"
        '# "line 9": the command of the first message that shows the entry is line 9 of the recording.\n'
        '# "tried": no message shows it alone, and the recording is explained with it.\n# What the recording does not show is illegal here.\n'
        "# It never shows which words are held: vector, bit, initial and wraparound are left out.\naddress = 5\n"),
    Row("a recording that no profile explains", "infer reserved --address 5", 1, errors=NONE_FOUND.format("reserved")),
    Row("messages without answers, for a profile", "infer --expand messages --address 5", 1,
        errors=NONE_FOUND.format("messages") + "messages: warning: the script states no answer\n"),
    Row("hand-overs in a recording, counted", "coverage tests hands", 0,
        "mode code 2, transmit status word           never\nmode code 3, initiate self test             1 done\n"
        "mode code 4, transmitter shutdown           never\nmode code 5, override transmitter shutdown  never\n"
        "mode code 8, reset remote terminal          never\n\nlegal messages: 1 of 5 came, 1 done\nillegal messages: 0 came\n", LEFT_OUT),
    Row("no address of a terminal", "infer came --address 31", 3, errors="arguments: --address is 0 to 30\n"),
    Row("a recording of the subsystem, for a profile", "infer acts --address 5", 2,
        errors="acts:1: error: what the subsystem does is not seen in a recording\n"),
)

# what `recording` makes of the tables of a monitor
TIED = (
    "table: row 3, column 1: a word of this row and one above, on the other bus, end within what their times leave open, and what the terminal does depends "
    "on their order; rows written: 1\n"
)
HEAD = "time,bus,sync,word\n"
WORDS = f"{HEAD}0,A,c,2c02\n24,A,s,2800\n"
TABLES = with_files(
    {
        "words.csv": WORDS,
        "noise.csv": "word,Sync,BUS,time,note,error\r\n0x2C02,command,a,0,,\r\n2800,status,a,24,,parity\r\n",
        "transfer.csv": "time,bus,sync,word\n0,A,c,2822\n20,A,c,3422\n44,A,s,3000\n64,A,d,beef\n84,A,d,dead\n108,A,s,2800\n",
        "messages.csv": "time,bus,command,command2,data,status,status2\n0,A,2862,,0001 0002,2800,\n500,B,3822,2c22,beef,2800,3800\n",
        "late.csv": f"{WORDS}100,A,c,2c02\n140,A,s,2800\n",
        "cut.csv": f"{HEAD}0,A,c,2862\n20,A,d,0001\n40,B,c,2c02\n66,B,s,2c00\n",
        "silent.csv": f"{HEAD}0,A,c,2862\n20,A,c,3462\n68,B,c,2c02\n92,B,s,2c00\n",
        "waits.csv": f"{HEAD}0,A,c,2822\n20,A,c,3482\n110,A,c,3062\n130,A,d,0001\n150,A,d,0002\n190,A,c,2c02\n216,A,s,2c00\n",
        "slow.csv": f"{HEAD}0,A,c,2862\n20,A,c,3462\n70,A,s,3000\n90,A,d,0001\n110,A,d,0002\n1000,A,c,2c02\n1024,A,s,2c00\n",
        "superseded.csv": f"{HEAD}0,A,c,2c64\n26,A,s,2800\n46,A,d,0000\n60,B,c,2c02\n66,A,d,0000\n86,B,s,2800\n",
        "dropped.csv": f"{HEAD}0,A,c,2c64\n26,A,s,2800\n45.5,B,c,2c02\n46,A,d,0000\n66,A,d,0000\n77,B,s,2800\n",
        "broadcast.csv": f"{HEAD}0,A,c,2c64\n26,A,s,2800\n45.5,B,c,f821\n46,A,d,0000\n66,A,d,0000\n",
        "open.csv": f"{HEAD}0,A,c,2822\n20,A,d,0001\n25,B,c,2c02\n49,B,s,2800\n",
        "tie.csv": f"{HEAD}0,A,c,2c02\n0.5,B,c,2c02\n",
        "tied.csv": "time,bus,command,status\n0,A,2c02,2800\n0.5,B,2c02,\n",
        "short.csv": "time,bus,command,data,status\n0,A,2c64,0000 0000,2800\n60,B,2c02,,2800\n",
        "fast.csv": "time,bus,command,command2,data,status\n0,A,2821,3421,0001,3000\n65,B,2c02,,,2800\n",
        "untold.csv": "time,bus,command,command2,status\n0,A,2862,3462,\n90,B,2c02,,2c00\n",
        "crossed.csv": "time,bus,command,command2,data,status\n0,A,2822,3422,0001 0002,3000\n30,B,3c21,,,\n75,B,2fe2,,,2800\n",
        "early.csv": "time,bus,command,command2,status\n0,A,2862,3462,\n60,A,2c02,,2c00\n",
        "before.csv": f"{HEAD}10,A,c,2c02\n5,B,c,2c02\n",
        "overlaps.csv": f"{WORDS}40,A,s,2800\n",
        "neither.csv": "time,bus,sync\n",
        "unclear.csv": "time,bus,command,error\n0,A,2c02,parity\n",
        "quote.csv": 'time,bus,sync,word\n0,A,c,2c02\n"20,A,c,2c02\n40,A,c,2c02\n',
        "beyond.csv": "time,bus,command,data,status\n0,A,2863,0001,0002,0003,28e0\n",
        "commas.csv": "time,bus,sync,word\n0,A,c,2c02,,,\n",
        "errors.csv": "time,bus,sync,word,error\n0,A,c,2c02,0\n20,A,c,2c03,No\n40,A,c,2c04,NONE\n60,A,c,2c05,1\n",
        "flawless.csv": "time,bus,command,error\n0,A,2c02,none\n",
        "within.csv": "time,bus,command,data\n1000,A,3861,0001\n1010,B,3861,\n1040,A,3861,\n1059,A,3861,\n1077,A,3861,\n",
        "order.csv": "time,bus,command\n1000,A,3861\n999,B,3861\n",
    },
    Row("a table of words", "recording words.csv --address 5", 0, "# 0\nA c 2c02\nA gap\n# 24\nslot\n#> A s 2800\nA gap\nslot\n"),
    Row("words of another terminal", "recording words.csv --address 6", 0, "# 0\nA c 2c02\nA gap\n# 24\nA c 2800\nA gap\n"),
    Row("columns in any order, and a word with an error", "recording noise.csv --address 5", 0,
        "# 0\nA c 2c02\nA gap\n# 24\nA noise\nA gap\nslot\n",
        'noise.csv:1:5: warning: the column "note" is left out\n'),
    Row("a transfer between terminals", "recording transfer.csv --address 5", 0,
        "# 0\nA c 2822\n# 20\nA c 3422\nA gap\n# 44\nA c 3000\n# 64\nA d beef\n# 84\nA d dead\nA gap\n# 108\nslot\n#> A s 2800\nA gap\nslot\n"),
    Row("a gap before a word of the other bus that ends later", "recording cut.csv --address 5", 0,
        "# 0\nA c 2862\n# 20\nA d 0001\nA gap\nslot\n#? A gap\n# 40\nB c 2c02\nB gap\n# 66\nslot\n#> B s 2c00\nB gap\nslot\n"),
    Row("a time-out before a message on the other bus", "recording silent.csv --address 5", 0,
        "# 0\nA c 2862\n# 20\nA c 3462\nA gap\nslot\nA gap\n# 68\nB c 2c02\nB gap\n# 92\nslot\n#> B s 2c00\nB gap\nslot\n"),
    Row("a time-out before a message on the same bus", "recording waits.csv --address 5", 0,
        "# 0\nA c 2822\n# 20\nA c 3482\nA gap\nslot\nA gap\n# 110\nA c 3062\n# 130\nA d 0001\n# 150\nA d 0002\nA gap\n# 190\nA c 2c02\n"
        "A gap\n# 216\nslot\n#> A s 2c00\nA gap\nslot\n"),
    Row("a time-out that may have come", "recording slow.csv --address 5", 0,
        "# 0\nA c 2862\n# 20\nA c 3462\nA gap\nslot\n#? A gap\n# 70\nA c 3000\n# 90\nA d 0001\n# 110\nA d 0002\nB gap\nA gap\nslot\n"
        "B gap\nA gap\nslot\n# 1000\nA c 2c02\nA gap\n# 1024\nslot\n#> A s 2c00\nA gap\nslot\n"),
    Row("a command that is heard within a reply on the other bus", "recording superseded.csv --address 5", 0,
        "# 0\nA c 2c64\nA gap\n# 26\nslot\n#> A s 2800\n# 46\nslot\n#> A d 0000\n# 66\nslot\n#> A d 0000\n# 60\nB c 2c02\nB gap\n# 86\n"
        "slot\n#> B s 2800\nA gap\nB gap\n"),
    Row("a command that ends when the last word of a reply begins", "recording dropped.csv --address 5", 0,
        "# 0\nA c 2c64\nA gap\n# 26\nslot\n#> A s 2800\n# 46\nslot\n#> A d 0000\n# 66\nslot\n#> A d 0000\n# 45.5\nB c 2c02\n"
        "B gap\n# 77\nslot\n#> B s 2800\nA gap\nB gap\n"),
    Row("a broadcast that ends when the last word of a reply begins", "recording broadcast.csv --address 5", 0,
        "# 0\nA c 2c64\nA gap\n# 26\nslot\n#> A s 2800\n# 46\nslot\n#> A d 0000\n# 66\nslot\n#> A d 0000\n# 45.5\nB c f821\n"
        "A gap\nB gap\n"),
    Row("a gap that may have come before a command on the other bus", "recording open.csv --address 5", 0,
        "# 0\nA c 2822\n# 20\nA d 0001\n#? A gap\n# 25\nB c 2c02\nA gap\nB gap\n# 49\nslot\n#> B s 2800\nB gap\nslot\n"),
    Row("commands on two buses at once", "recording tie.csv --address 5", 2,
        "# 0\nA c 2c02\n#! row 3 was refused; rows written: 1\n", f"tie.csv: {TIED}"),
    Row("the same of messages", "recording tied.csv --address 5", 2,
        "# 0\nA c 2c02\nA gap\nslot\n#> A s 2800\n#! row 3 was refused; rows written: 1\n", f"tied.csv: {TIED}"),
    Row("a table of messages", "recording messages.csv --address 5", 0,
        "# 0\nA c 2862\nA d 0001\nA d 0002\nA gap\nslot\n#> A s 2800\nA gap\nB gap\nslot\nA gap\nB gap\nslot\n# 500\nB c 3822\n"
        "B c 2c22\nB gap\nslot\n#> B s 2800\nslot\n#> B d beef\nB gap\nB c 3800\nB gap\n"),
    Row("the same, with a longer pause", "recording messages.csv --address 5 --pause 1000", 0,
        "# 0\nA c 2862\nA d 0001\nA d 0002\nA gap\nslot\n#> A s 2800\nA gap\nslot\n# 500\nB c 3822\nB c 2c22\nB gap\nslot\n#> B s 2800\nslot\n"
        "#> B d beef\nB gap\nB c 3800\nB gap\n"),
    Row("a message that cuts a reply short on the other bus", "recording short.csv --address 5", 0,
        "# 0\nA c 2c64\nA gap\nslot\n#> A s 2800\nslot\n#> A d 0000\nslot\n#> A d 0000\n# 60\nB c 2c02\nA gap\nB gap\nslot\n#> B s 2800\n"
        "B gap\nslot\n"),
    Row("a message that may have ended before one on the other bus", "recording fast.csv --address 5", 0,
        "# 0\nA c 2821\nA c 3421\nA gap\n#? A gap\nA c 3000\nA d 0001\n#? A gap\n# 65\nB c 2c02\nA gap\nB gap\nslot\n#> B s 2800\nB gap\nslot\n"),
    Row("a message that one of another crosses, and one to the unit cuts short", "recording crossed.csv --address 5", 0,
        "# 0\nA c 2822\nA c 3422\nA gap\n#? A gap\nA c 3000\nA d 0001\nA d 0002\n# 30\nB c 3c21\n#? A gap\nB gap\n# 75\nB c 2fe2\nB gap\n"
        "slot\n#> B s 2800\nB gap\nslot\n"),
    Row("a time-out before a message", "recording untold.csv --address 5", 0,
        "# 0\nA c 2862\nA c 3462\nA gap\nslot\nA gap\n# 90\nB c 2c02\nB gap\nslot\n#> B s 2c00\nB gap\nslot\n"),
    Row("a time-out that may have come before a message", "recording early.csv --address 5", 0,
        "# 0\nA c 2862\nA c 3462\nA gap\nslot\n#? A gap\n# 60\nA c 2c02\nA gap\nslot\n#> A s 2c00\nA gap\nslot\n"),
    Row("a pause that is too short", "recording messages.csv --address 5 --pause 59.9", 3, errors="arguments: --pause is at least 60 microseconds\n"),
    Row("a reply that is too late", "recording late.csv --address 5", 0,
        "# 0\nA c 2c02\nA gap\n# 24\nslot\n#> A s 2800\nA gap\nslot\n# 100\nA c 2c02\nA gap\nslot\n# 140\n# later than no response by 8 us: A s 2800\n"),
    Row("the same, with more time", "recording late.csv --address 5 --no-response 25.5", 0,
        "# 0\nA c 2c02\nA gap\n# 24\nslot\n#> A s 2800\nA gap\nslot\n# 100\nA c 2c02\nA gap\n# 140\nslot\n#> A s 2800\nA gap\nslot\n"),
    Row("a longer gap", "recording words.csv --address 5 --gap 5", 0, "# 0\nA c 2c02\n# 24\nslot\n#> A s 2800\nA gap\nslot\n"),
    Row("words that overlap on one bus", "recording overlaps.csv --address 5", 2,
        "# 0\nA c 2c02\nA gap\n# 24\nslot\n#> A s 2800\n#! row 4 was refused; rows written: 2\n",
        "overlaps.csv: table: row 4, column 1: the word above on this bus ends 20 microseconds after it begins, and this one begins earlier; "
        "rows written: 2\n"),
    Row("a word before the one above", "recording before.csv --address 5", 2,
        "# 10\nA c 2c02\n#! row 3 was refused; rows written: 1\n",
        "before.csv: table: row 3, column 1: earlier than the row above; rows written: 1\n"),
    Row("a table of neither kind", "recording neither.csv --address 5", 2,
        "#! row 1 was refused; rows written: 0\n",
        "neither.csv: table: row 1, column 4: no column is named word, and none command; rows written: 0\n"),
    Row("a message with an error", "recording unclear.csv --address 5", 2,
        "#! row 2 was refused; rows written: 0\n",
        "unclear.csv: table: row 2, column 4: the row does not tell which of its words has the error; rows written: 0\n"),
    Row("a quote that is not closed", "recording quote.csv --address 5", 2,
        "# 0\nA c 2c02\n#! row 3 was refused; rows written: 1\n",
        "quote.csv: table: row 3, column 1: a quote is not closed in its line; rows written: 1\n"),
    Row("a word beyond the header", "recording beyond.csv --address 5", 2,
        "#! row 2 was refused; rows written: 0\n",
        "beyond.csv: table: row 2, column 6: text beyond the columns of the header; rows written: 0\n"),
    Row("commas beyond the header", "recording commas.csv --address 5", 0, "# 0\nA c 2c02\nA gap\nslot\n"),
    Row("no error, in so many words", "recording errors.csv --address 5", 0, "# 0\nA c 2c02\n# 20\nA c 2c03\n# 40\nA c 2c04\n# 60\nA noise\nA gap\nslot\n"),
    Row("a message without an error", "recording flawless.csv --address 5", 0, "# 0\nA c 2c02\nA gap\nslot\n"),
    Row("messages that overlap", "recording within.csv --address 5", 2,
        "# 1000\nA c 3861\nA d 0001\n# 1010\nB c 3861\n#? A gap\nB gap\nA gap\n# 1040\nA c 3861\nA gap\n# 1059\nA c 3861\n"
        "#! row 6 was refused; rows written: 4\n",
        "within.csv: table: row 6, column 1: the words of the message above on this bus, 20 microseconds each, have not ended, or the second "
        "command on the other; rows written: 4\n"),
    Row("a message before the one above", "recording order.csv --address 5", 2,
        "# 1000\nA c 3861\n#! row 3 was refused; rows written: 1\n",
        "order.csv: table: row 3, column 1: earlier than the row above; rows written: 1\n"),
    Row("no table", "recording none.csv --address 5", 4, errors="file: cannot read none.csv: no such file\n"),
    Row("an address beyond 30", "recording words.csv --address 31", 3, errors="arguments: --address is 0 to 30\n"),
    Row("a gap that is no time", "recording words.csv --address 5 --gap 1us", 3, errors="arguments: --gap, --no-response, --pause, --after-reset and --after-self-test are in microseconds, as 4.5\n"),
)


@pytest.mark.parametrize("row", RECORDINGS, ids=lambda it: it.name)
def test_any_subsystem(tool, row, tmp_path):
    check_row(tool, row, tmp_path)


@pytest.mark.parametrize("row", SHOWN, ids=lambda it: it.name)
def test_shown(tool, row, tmp_path):
    check_row(tool, row, tmp_path)


@pytest.mark.parametrize("row", TABLES, ids=lambda it: it.name)
def test_recording(tool, row, tmp_path):
    check_row(tool, row, tmp_path)


def test_schema_of_coverage(tool, tmp_path):
    write_files(tmp_path, SHOWN_FILES)
    given = run(tool, "coverage", "--format", "json", "five", "flags", folder=tmp_path)
    assert misfits(json.loads(given.output), "docs/coverage.schema.json") == []
