"""`rt1553-tool bus`: a transfer, collisions, messages, warnings and faults, and each terminal alone against `run`, over random scripts.

Of `bus --check` also the names of messages, the load, and its reports beside the text; those by Python's own readers of JSON and XML.
"""

import random
import re
import xml.etree.ElementTree as xml
from typing import NamedTuple

import pytest
import reports
from programs import TOP, Row, check_row, run, with_files, write_files
from schemas import misfits

RULES = "".join(f"[[rule]]\ndirection = \"{it}\"\nsubaddresses = {s}\ncounts = 1\n" for it, s in (("receive", 1), ("transmit", 2)))
FILES = {"five": f"address = 5\n{RULES}", "six": f"address = 6\n{RULES}", "again": "address = 5\n", "none": "address = 31\n"}
TRANSFER = "05 write 02 01 5201\nA c 3021\nA c 2c41\nA gap\nslot\nslot\nA gap\nslot\n"
TRANSCRIPT = "05 A s 2800\n05 A d 5201\n06 hand receive own 01 5201\n06 A s 3000\n"


HEARER = 'address = 6\nbroadcast = true\n[[rule]]\nto = "both"\ndirection = "receive"\nsubaddresses = 1\ncounts = 1\n'
MESSAGES = "05 write 02 01 5201\n# 5 to 6\nA rx 6 1 1 from 5 2: 0000\n"


def expanded(name, output, errors, *lines, status=0, more=""):
    """A run of messages."""
    return Row(name, f"bus --expand five six script{more}", status, output, errors, files={"script": "".join(f"{it}\n" for it in lines)})


def counted(messages):
    """A number of messages in words."""
    return f"{messages} message" + "s" * (messages != 1)


def end_told(messages, wrong, every_order=True):
    """The last line of a check."""
    well = "each ends well, in every order" if every_order else "all end well; in another order some may not"
    return counted(messages) + (f", {wrong} of them do{'es' * (wrong == 1)}n't end well" if wrong else f": {well}")


HEADER = "number    line bus kind      RT sub words ended\n"
SEVEN = ("address = 7\nbroadcast = true\n[[rule]]\nto = \"both\"\ndirection = \"receive\"\nsubaddresses = 1\n"
         "[[rule]]\ndirection = \"transmit\"\nsubaddresses = 2\n[[mode]]\ncodes = 4\n")  # fmt: skip


def checked(name, told, *lines, status=1, errors=""):
    """A check of messages for three terminals."""
    output = "".join(f"script:{it}\n" if re.match(r"\d+: ", it) else f"{it}\n" for it in told)
    return Row(f"check: {name}", "bus --check five six seven script", status, output, errors,
               files={"seven": SEVEN, "script": "".join(f"{it}\n" for it in lines)})


# a table for a terminal, and its rows, by their names
HEAD = "kind,name,value,subaddress,words,to,code\n"
SIX = f"{HEAD}address,,6,,,,\nreceive,level,,1,1,,\ntransmit,position,,2,1,,\n"
TABLES = {
    "5.csv": f"{HEAD}address,,5,,,,\nreceive,speed,,1,1,,\ntransmit,\"the \"\"pressure\"\"\",,2,1,,\n",
    "6.csv": SIX,
    "7.csv": f"{HEAD}address,,7,,,,\nreceive,all of them,,1,1,both,\nmode,off,,,,,4\n",
    "8.csv": SIX.replace(",6,", ",8,"), "none.csv": SIX.replace("address,,6", "address,,"), "no.csv": f"{HEAD}receive,level,,1,1,,\n",
}
GROUP = ["# rate 50", "A rx 5 1 1: 0001", "B tx 6 2 1"]
# what is for --check alone
CHECK_ALONE = "arguments: --format json and junit, --names, --date, --response and --gap are for --check\n"


def named(name, tables, told, *lines, status=1, errors="", more=""):
    """A check of messages with tables of names."""
    row = checked(f"names: {name}", told, *lines, status=status, errors=errors)
    return row._replace(words=" ".join([row.words, more, *(f"--names {it}" for it in tables.split())]), files={**row.files, **TABLES})


def timed(name, words, told, *lines, errors=""):
    """A check of messages that end well, with rates."""
    row = checked(f"load: {name}", told, *lines, status=0, errors=errors)
    return row._replace(words=f"{row.words} {words}")


def refused(name, line, told):
    """A script whose second line is refused."""
    return Row(name, "bus six five script", 2, "", f"script:2:{told}\n", files={"script": f"# so\n{line}\nA gap\n"})


ROWS = with_files(
    FILES,
    Row("a transfer", "bus five six script", 0, TRANSCRIPT, files={"script": TRANSFER}),
    Row("a transfer: the order of the profiles is none of the transcript", "bus six five script", 0, TRANSCRIPT, files={"script": TRANSFER}),
    Row("a terminal alone", "bus five six script --alone 06", 0,
        "A c 3021\nA c 2c41\nA gap\nslot\nA c 2800\nslot\nA d 5201\nA gap\nslot\n", files={"script": TRANSFER}),
    Row("words that collide", "bus five six script", 0,
        "05 B s 2800\n06 B s 3000\nB collision\n",
        "script:4: warning: a gap while terminal 05 replies: another terminal can begin its reply\n",
        files={"script": "B c 2c41\nB gap\nB c 3441\nB gap\nslot\n"}),
    Row("a command that is taken for a status word", "bus five six script", 0, "",
        "script:4: warning: a command to terminal 05, for whose status word another terminal waits, which takes it for that\n",
        files={"script": "A c 3021\nA c 2c41\nA gap\nA c 2821\n"}),
    refused("no address", "bit 0001", "1: error: a line of a subsystem begins with the address of its terminal, in two digits"),
    refused("an address in front of a gap", "05 A gap", "1: error: an address stands only in front of write, vector, bit or flag"),
    refused("an address in front of nothing", "05 ", "1: error: an address stands only in front of write, vector, bit or flag"),
    refused("an address over 30", "31 bit 0001", "1: error: no terminal has address 31: addresses are 00 to 30"),
    refused("an address of no profile", "07 bit 0001", "1: error: no profile has address 07"),
    refused("no line of a script", "A gup", "3: error: after a bus, c, d, gap or noise is expected"),
    refused("no line behind an address", "05 bit 001", "11: error: a word is four hexadecimal digits, without a mark"),
    refused("a line of 65 bytes", "#" * 65, "65: error: over 64 bytes before the line feed"),
    Row("what comes before a refused line", "bus five script", 2, "05 A s 2800\n", "script:4:1: error: no profile has address 06\n",
        files={"script": "A c 2c41\nA gap\nslot\n06 bit 0001\n"}),
    Row("too many lines", "bus five script", 2, "", "script:1048577:1: error: a script has at most 1,048,576 lines\n",
        files={"script": "\n" * 1048577}),
    Row("two profiles of one address", "bus five six again script", 2, "",
        "five and again: the same address, 05; on a bus each terminal has its own\n", files={"script": ""}),
    Row("a profile that is refused", "bus five none script", 2, "",
        "none:1:1: error: profile: root: address is out of range: 31; allowed is a whole number from 0 to 30\n", files={"script": ""}),
    Row("no script of this name", "bus five script", 4, "", "file: cannot read script: no such file\n"),
    *(Row(f"no address: {it}", f"bus five script --alone {it}", 3, errors="arguments: --alone is 0 to 30\n", files={"script": ""}) for it in ("31", "all")),
    expanded("messages: a transfer between two terminals of the bus", TRANSCRIPT, "", MESSAGES),
    expanded("messages: what comes to one terminal of a transfer",
             "A c 3021\nA c 2c41\nA gap\nslot\nA c 2800\nslot\nA d 5201\nA gap\nslot\n", "", MESSAGES, more=" --alone 6"),
    expanded("messages: the same on a bus without the receiver", "05 A s 2800\n05 A d 5201\n", "", "05 write 02 01 5201", "A rx 7 1 1 from 5 2: 0000"),
    expanded("messages: behind a transfer without the receiver", "05 A s 2800\n05 A d 0000\n06 hand receive own 01 1111\n06 A s 3000\n", "",
             "A rx 7 1 1 from 5 2: 0000", "A rx 6 1 1: 1111"),
    Row("messages: a transfer to all", "bus --expand five hearer script", 0, "05 A s 2800\n05 A d 5201\n06 hand receive broadcast 01 5201\n", "",
        files={"hearer": HEARER, "script": "05 write 02 01 5201\nA rx all 1 1 from 5 2: 0000\n"}),
    expanded("messages: transfers without words", TRANSCRIPT + "05 A s 2800\n05 A d 5201\n", "",
             "05 write 02 01 5201", "A rx 6 1 1 from 5 2", "A rx 9 1 1 from 5 2"),
    Row("messages: a transfer to all without words", "bus --expand five hearer script", 0, "05 A s 2800\n05 A d 5201\n06 hand receive broadcast 01 5201\n", "",
        files={"hearer": HEARER, "script": "05 write 02 01 5201\nA rx all 1 1 from 5 2\n"}),
    expanded("messages: a transfer without words, and without the transmitter", "",
             "script:2:20: error: a colon and data words are missing: no profile has the address of the terminal that sends\n",
             "A rx 6 1 1 from 5 2", "A rx 6 1 1 from 9 1", status=2),
    *(expanded(f"messages: no transfer, and no words: {line}", "", f"script:1:{column}: error: {told}\n", line, status=2) for line, column, told in [
        ("A rx 6 1 1", 11, "a colon is missing before the data words, as in A rx 5 3 1: 0001"),
        ("A rx 6 1 1 from 5 2:", 21, "a data word is wanted: one space and four hexadecimal digits"),
        ("A rx 6 1 2 from 5 2: 0001", 26, "a data word is wanted: one space and four hexadecimal digits"),
    ]),
    expanded("messages: a transfer from a terminal that is not there", "06 hand receive own 01 1234\n06 A s 3000\n", "", "A rx 6 1 1 from 9 1: 1234"),
    expanded("messages: to a terminal that is not there", "06 A s 3000\n06 A d 0000\n", "", "A rx 9 1 1: 1234", "A tx 9 1 2", "A tx 6 2 1"),
    expanded("messages: lines of subsystems", "05 B s 2808\n06 B s 3000\n06 B d 0000\n", "", "05 flag busy 1", "B tx 5 2 1", "B tx 6 2 1"),
    expanded("messages: a line that is refused as a message", "", "script:2:3: error: after a bus, rx, tx, mode, status or data is expected for a message,"
             " and c, d, gap or noise for an event\n", "05 flag busy 1", "A rxx 5 1 1: 0001", "07 flag busy 1", status=2),
    expanded("messages: a line of a subsystem that is refused", "05 A s 2800\n05 A d 0000\n", "script:2:1: error: no profile has address 07\n",
             "A tx 5 2 1", "07 flag busy 1", "A tx 5 2 1", status=2),
    expanded("messages: no address", "05 A s 2800\n05 A d 0000\n",
             "script:2:1: error: a line of a subsystem begins with the address of its terminal, in two digits\n", "A tx 5 2 1", "flag busy 1", status=2),
    expanded("messages: no line behind an address", "05 A s 2800\n05 A d 0000\n",
             "script:2:11: error: a word is four hexadecimal digits, without a mark\n", "A tx 5 2 1", "05 bit 001", status=2),
    expanded("messages: a warning tells the line of the file", "", "script:4: warning: a gap while terminal 05 replies: another terminal can begin its reply\n",
             "A rx 9 1 1: 0001", "A c 2c41", "A gap", "A gap"),
    Row("a message without --expand", "bus five six script", 2, "", "script:1:3: error: a message and no event: `expand` writes its events, and --expand reads messages\n",
        files={"script": "A tx 5 2 1\n"}),
    Row("the messages of each terminal", "bus --messages five six script", 0,
        HEADER + "     1       2 A   transfer   6   1     1 done; from 5 2; data 5201; status 2800\n"
        "     1       2 A   transfer   6   1     1 done; from 5 2; data 5201; status 3000; hand receive own 01 5201\n", files={"script": TRANSFER}),
    expanded("the messages of each terminal: lines of the file",
             HEADER + "     1       3 A   transfer   6   1     1 done; from 5 2; data 5201; status 2800\n"
             "     1       3 A   transfer   6   1     1 done; from 5 2; data 5201; status 3000; hand receive own 01 5201\n"
             "     2       4 A   tx         5   3     1 illegal; status 2c00 error\n"
             "     4       6 B   rx         6   1     1 done; data 0002; status 3000; hand receive own 01 0002\n",
             "", "05 write 02 01 5201", "# 5 to 6", "A rx 6 1 1 from 5 2: 0000", "A tx 5 3 1", "A rx 9 1 1: 0001", "B rx 6 1 1: 0002", more=" --messages"),
    Row("the messages of each terminal: a broadcast", "bus --expand --messages five hearer seven script", 0,
        HEADER + "     1       1 A   rx       all   1     1 done; data 0001; hand receive broadcast 01 0001\n"
        "     1       1 A   rx       all   1     1 done; data 0001; hand receive broadcast 01 0001\n",
        files={"hearer": HEARER, "seven": SEVEN, "script": "A rx all 1 1: 0001\n"}),
    Row("the messages of each terminal: before a refused line", "bus --messages five script", 2,
        HEADER + "     1       1 A   tx         5   2     1 done; data 0000; status 2800\n", "script:6:1: error: no profile has address 06\n",
        files={"script": "A c 2c41\nA gap\nslot\nslot\nA c 2c41\n06 bit 0001\n"}),
    Row("the messages of each terminal: a warning", "bus --messages five six script", 0,
        HEADER + "     1       1 B   tx         5   2     1 done; status 2800\n     2       3 B   tx         6   2     1 done; status 3000\n",
        "script:4: warning: a gap while terminal 05 replies: another terminal can begin its reply\n",
        files={"script": "B c 2c41\nB gap\nB c 3441\nB gap\nslot\n"}),
    checked("all end well", ["3 messages: each ends well, in every order"], "# to 5", "A rx 5 1 1: 0001", "A rx 6 1 1 from 5 2: 0000", "B tx 6 2 1", status=0),
    checked("no message", ["1: leaves terminal 05 in a message on bus A", "4: leaves terminal 05 in a message on bus A",
                           "0 messages: all end well; in another order some may not"], "A c 2c41", "A gap", "slot", "A status 5", "A data 0001", status=0),
    checked("the name of no profile", ["1: no profile has address 09", "2: no profile has address 13; no profile has address 12",
                                       "2 messages, 2 of them don't end well"], "A rx 9 1 1: 0001", "A rx 12 1 1 from 13 1: 0001"),
    checked("illegal", ["1: terminal 05: illegal: transmit 3 is not legal", "2: terminal 05: illegal: transmit 3 is not legal; terminal 06: in error: wrong word count",
                        "3: terminal 05: illegal", "1: leaves terminal 05 with message error in the status that it keeps",
                        "2: leaves terminal 05 with message error in the status that it keeps", "3: leaves terminal 05 with message error in the status that it keeps", "4 messages, 3 of them don't end well"], "A tx 5 3 1", "A rx 6 1 1 from 5 3", "B mode 5 19", "B tx 6 2 1"),
    checked("illegal: the transmitter's words come first, and then the receiver's", [
        "1: terminal 05: illegal: transmit 2 is legal for 1 word; terminal 06: in error: wrong word count", "2: terminal 06: illegal: receive 2 is not legal",
        "3: terminal 06: illegal: receive 1 is legal for 1 word", "5: terminal 05: busy; terminal 06: in error: wrong word count # in the run",
        "1: leaves terminal 05 with message error in the status that it keeps", "2: leaves terminal 06 with message error in the status that it keeps",
        "3: leaves terminal 06 with message error in the status that it keeps", "4: leaves terminal 05 busy", "4 messages, 4 of them don't end well"], "A rx 6 1 2 from 5 2", "A rx 6 2 1 from 5 2", "A rx 6 1 2: 0001 0002", "05 flag busy 1", "A rx 6 1 1 from 5 2"),
    Row("check: illegal: several word counts, one of them 32", "bus --check many script", 1,
        "script:1: terminal 08: illegal: transmit 3 is legal for 2-4,32 words\nscript:2: terminal 08: illegal: receive 3 is legal for 32 words\n"
        "script:1: leaves terminal 08 with message error in the status that it keeps\n"
        "script:2: leaves terminal 08 with message error in the status that it keeps\n"
        "2 messages, 2 of them don't end well\n",
        files={"many": "address = 8\n" + "".join(f"[[rule]]\ndirection = \"{it}\"\nsubaddresses = 3\ncounts = \"{counts}\"\n"
                                                 for it, counts in (("transmit", "2-4,32"), ("receive", "32"))),
               "script": "A tx 8 3 1\nB rx 8 3 1: 0000\n"}),
    checked("busy in the run", ["2: terminal 05: busy # in the run", "1: leaves terminal 05 busy", "2 messages, 1 of them doesn't end well"],
            "05 flag busy 1", "A rx 5 1 1: 0001", "05 flag busy 0", "A rx 5 1 1: 0001"),
    checked("behind a command without its words", ["2: terminal 06: takes it for no message # in the run", "1: leaves terminal 06 in a message on bus A", "1 message, 1 of them doesn't end well"],
            "A c 3021", "A rx 6 1 1: 0001"),
    checked("a transmitter that is shut down", ["2: terminal 07: done: transmitter shut down; terminal 06: in error: no status from the transmitter # in the run",
                                                "3: terminal 07: illegal: transmit 3 is not legal; terminal 06: in error: wrong word count # alone",
                                                "3: terminal 07: illegal: transmitter shut down, transmit 3 is not legal;"
                                                " terminal 06: in error: no status from the transmitter # in the run",
                                                "1: leaves terminal 07 with its transmitter shut down on bus A",
                                                "3: leaves terminal 06 with message error in the status that it keeps", "3 messages, 2 of them don't end well"],
            "B mode 7 4", "A rx 6 1 1 from 7 2: 0000", "A rx 6 1 1 from 7 3: 0000"),
    checked("broadcasts", ["2: no terminal takes the broadcast; terminal 07: illegal: broadcast receive 2 is not legal",
                           "2: leaves terminal 07 with message error in the status that it keeps", "2 messages, 1 of them doesn't end well"],
            "A rx all 1 1: 0001", "A rx all 2 1: 0001"),
    Row("check: a broadcast that one of its terminals takes for a word of another message", "bus --check hearer seven script", 1,
        "script:2: terminal 06: takes it for no message # in the run\nscript:1: leaves terminal 06 in a message on bus A\n1 message, 1 of them doesn't end well\n",
        files={"hearer": HEARER, "seven": SEVEN, "script": "A c 3021\nA rx all 1 1: 0001\n"}),
    Row("check: a transfer to all from a terminal that replies", "bus --check hearer seven script", 1,
        "script:3: terminal 07: ignored: during a reply # in the run\nscript:1: leaves terminal 07 in a message on bus A\n1 message, 1 of them doesn't end well\n",
        "script:3: warning: a gap while terminal 07 replies: another terminal can begin its reply\n",
        files={"hearer": HEARER, "seven": SEVEN, "script": "A c 3c41\nA gap\nA rx all 1 1 from 7 2: 0000\n"}),
    checked("right behind the command of an event", ["1: leaves terminal 06 in a message on bus A", "1 message: all end well; in another order some may not"], "A c 3021", "05 flag busy 0", "A tx 5 2 1", status=0),
    Row("check: a broadcast without a terminal that has the option", "bus --check five six script", 1,
        "script:1: no terminal takes the broadcast\n1 message, 1 of them doesn't end well\n", files={"script": "A rx all 1 1: 0001\n"}),
    checked("stated answers", ["2 messages: each ends well, in every order"], "A tx 5 2 1", "#> A s 2800", "#> A d 0000", "A rx 5 1 1: 0001", "#> hand receive own 01 0001", status=0),
    checked("a warning", ["3: terminal 05: ignored: during a reply # in the run", "1: leaves terminal 05 in a message on bus A", "1 message, 1 of them doesn't end well"], "A c 2c41\nA gap", "A tx 5 2 1",
            errors="script:3: warning: a gap while terminal 05 replies: another terminal can begin its reply\n"),
    checked("a line that is refused", [], "A tx 5 2 1", "08 flag busy 1", status=2, errors="script:2:1: error: no profile has address 08\n"),
    checked("all lines that are refused", [], "08 flag busy 1", "A tx 5 2 1", "A tx 9 2 1", "A gup", "A rx 6 1 1", "# so", "flag busy 1", "05 bit 001", "05 A gap",
            "A rx 6 1 1 from 8 1", "31 bit 0001", "#" * 65, "B rx 6 1 1 from 5 2", "A c 2c41", "A gap", "A gap", "# rate x", status=2, errors=(
                "script:1:1: error: no profile has address 08\n"
                "script:4:3: error: after a bus, rx, tx, mode, status or data is expected for a message, and c, d, gap or noise for an event\n"
                "script:5:11: error: a colon is missing before the data words, as in A rx 5 3 1: 0001\n"
                "script:7:1: error: a line of a subsystem begins with the address of its terminal, in two digits\n"
                "script:8:11: error: a word is four hexadecimal digits, without a mark\n"
                "script:9:1: error: an address stands only in front of write, vector, bit or flag\n"
                "script:10:20: error: a colon and data words are missing: no profile has the address of the terminal that sends\n"
                "script:11:1: error: no terminal has address 31: addresses are 00 to 30\n"
                "script:12:65: error: a comment of over 64 bytes: a script has none that long\n")),
    Row("check: too many lines", "bus --check five script", 2, "", "script: script: too many lines\n", files={"script": "\n" * 1048577}),
    Row("check: a line that is refused, and too many", "bus --check five script", 2, "", "script:1048577:1: error: no profile has address 06\n",
        files={"script": "\n" * 1048576 + "06 flag busy 1\n"}),
    Row("check: no file", "bus --check five nothing", 4, "", "file: cannot read nothing: no such file\n"),
    named("each of its terminal", "5.csv 6.csv",
          ['2: "speed": terminal 05: busy # in the run', "3: terminal 05: illegal: transmit 3 is not legal", "4: no profile has address 09",
           "1: leaves terminal 05 busy", "3: leaves terminal 05 with message error in the status that it keeps", "4 messages, 3 of them don't end well"],
          "05 flag busy 1", "A rx 5 1 1: 0001", "A tx 5 3 1", "A rx 9 1 1: 0001", "B rx 6 1 1: 0002"),
    named("of the receiver, and else of the transmitter", "6.csv 5.csv",
          ['1: "level": terminal 05: illegal: transmit 3 is not legal; terminal 06: in error: wrong word count',
           "2: terminal 05: illegal: transmit 3 is not legal; no profile has address 09",
           '3: "the \\"pressure\\"": no profile has address 09', "1: leaves terminal 05 with message error in the status that it keeps",
           "2: leaves terminal 05 with message error in the status that it keeps", "3 messages, 3 of them don't end well"],
          "A rx 6 1 1 from 5 3: 0000", "A rx 9 1 1 from 5 3: 0000", "A rx 9 1 1 from 5 2: 0000"),
    named("of a broadcast, and of a mode code", "6.csv 7.csv",
          ["2: no terminal takes the broadcast; terminal 07: illegal: broadcast receive 2 is not legal", '3: "off": terminal 07: illegal',
           "2: leaves terminal 07 with message error in the status that it keeps", "3: leaves terminal 07 with message error in the status that it keeps", "3 messages, 2 of them don't end well"],
          "A rx all 1 1: 0001", "A rx all 2 1: 0001", "A mode 7 4 rx"),
    named("of a broadcast that none takes", "7.csv", ['1: "all of them": no terminal takes the broadcast', "1 message, 1 of them doesn't end well"],
          "A rx all 1 1: 0001")._replace(files={**FILES, **TABLES, "seven": "address = 7\n", "script": "A rx all 1 1: 0001\n"}),
    *(named(f"refused: {name} {more}", tables, [], "A tx 5 2 1", status=status, errors=errors, more=more)
      for more in ("", "--format json", "--format junit") for name, tables, status, errors in [
          ("no profile of the address", "5.csv 8.csv", 2, "8.csv: a table for address 08, which no profile has\n"),
          ("two of one address", "6.csv 5.csv 6.csv", 2, "6.csv and 6.csv: tables for the same address, 06\n"),
          ("an empty address", "none.csv", 2, "none.csv:2:3: error: value: empty: allowed is 0 to 30\n"),
          ("no address", "5.csv no.csv", 2, "no.csv: error: no row is of the kind address; its value is 0 to 30\n"),
          ("no file", "5.csv nothing", 4, "file: cannot read nothing: no such file\n"),
      ]),
    timed("on both buses", "", [
        "rate 50: 1 message, 76 us of each 20000 us on bus A", "rate 50: 1 message, 76 us of each 20000 us on bus B",
        "rate 3: 1 message, 128 us of each 333333 us on bus A", "load: 0.5 % of bus A", "load: 0.4 % of bus B", "5 messages: each ends well, in every order"],
        "A tx 5 2 1", *GROUP, "# rate 3", "A rx 6 1 1 from 5 2: 0000", "# rate 0", "A tx 5 2 1"),
    timed("other times", "--response 0 --gap 1000", [
        "rate 50: 1 message, 1060 us of each 20000 us on bus A", "rate 50: 1 message, 1060 us of each 20000 us on bus B",
        "load: 5.3 % of bus A", "load: 5.3 % of bus B", "2 messages: each ends well, in every order"], *GROUP),
    timed("exactly all of the bus", "--response 12 --gap 28", [
        "rate 10000: 1 message, 100 us of each 100 us on bus A", "load: 100.0 % of bus A", "1 message: each ends well, in every order"], "# rate 10000", "A rx 5 1 1: 0001"),
    timed("more than the bus has", "--response 12 --gap 29", [
        "rate 10000: 1 message, 101 us of each 100 us on bus A", "load: 101.0 % of bus A: more than the bus has", "1 message: each ends well, in every order"],
        "# rate 10000", "A rx 5 1 1: 0001"),
    timed("the highest rate, without a message", "", ["1 message: each ends well, in every order"], "# rate 1000000", "# rate 0", "A tx 5 2 1", "# rate 5"),
    timed("comments and no rates", "", ["1 message: each ends well, in every order"], "# rate", "# rates 5", "#  rate 5", "# rate of speed", "#rate 5", "# rate -1", "# rate +1", "A tx 5 2 1"),
    *(timed(f"{it!r}", "", ["1 message: each ends well, in every order"], f"# rate {it}", "A tx 5 2 1",
            errors='script:1: warning: no rate: behind "# rate " stands a number from 0 to 1000000 alone\n') for it in ("5 Hz", "1000001", "5 ", "0x5", "1.5", "9" * 30)),
    timed("events alone", "", ["2: leaves terminal 05 in a message on bus A", "5: leaves terminal 05 in a message on bus A",
                              "0 messages: all end well; in another order some may not"], "# rate 50", "A c 2c41", "A gap", "slot", "A status 5", "A data 0001"),
    *(Row(f"for --check alone: {words}", f"bus {it} {words} five six script", 3, "", CHECK_ALONE, files={**TABLES, "script": ""})
      for it in ("", "--messages", "--alone 5", "--expand")
      for words in ("--format json", "--format junit", "--names 5.csv", "--date 2026-01-31T12:00:00", "--response 12", "--gap 4")),
    *(Row(f"{option} {it}", f"bus --check {option} {it} five script", 3, "", f"arguments: {option} is 0 to 1000, in whole microseconds\n", files={"script": ""})
      for option in ("--response", "--gap") for it in ("1001", "4.5", "+4", "x", "12us", "65536")),
    *(Row(f"{option} {it}", f"bus --check {option} {it} five script", 0, "0 messages: each ends well, in every order\n", files={"script": ""})
      for option in ("--response", "--gap") for it in ("0", "1000")),
    *(Row(f"exclusive: {words}", f"bus five script {words}", 3, "", f"arguments: {told} exclude each other\n", files={"script": ""})
      for words, told in (("--check --messages", "--messages and --check"), ("--alone 5 --check", "--alone and --check"),
                          ("--messages --alone 5", "--alone and --messages"), ("--messages --alone 5 --check", "--alone, --messages and --check"))),
    Row("a date for text", "bus --check --date 2026-01-31T12:00:00 five script", 3, "", "arguments: --date is not for text\n", files={"script": ""}),
    Row("no terminal alone", "bus five script --alone 7", 2, "", "--alone: no profile has address 07\n", files={"script": ""}),
)  # fmt: skip


@pytest.mark.parametrize("row", ROWS, ids=lambda row: row.name)
def test_bus(tool, row, tmp_path):
    check_row(tool, row, tmp_path)


@pytest.mark.parametrize("words", ["bus", "bus five"])
def test_arguments_that_are_refused(tool, words, tmp_path):
    write_files(tmp_path, {**FILES, "script": ""})
    assert run(tool, *words.split(), folder=tmp_path).status == 3


def random_lines(draw, addresses):
    """Lines of a script, most of which are of messages to these terminals."""
    for _ in range(draw.randrange(5, 60)):
        bus, address = draw.choice("AAAB"), draw.choice([*addresses, *addresses, 31])
        word = address << 11 | draw.choice([0, 1]) << 10 | draw.choice([1, 2, 3]) << 5 | draw.choice([1, 1, 2])
        kind = draw.randrange(12)
        if kind < 4:
            yield f"{bus} c {word:04x}" + draw.choice(["", "", "", "", " 0", " 1"])
        elif kind < 6:
            yield f"{bus} d {draw.randrange(65536):04x}"
        elif kind < 8:
            yield f"{bus} gap"
        elif kind < 10:
            yield "slot"
        elif kind == 10:
            yield f"{bus} noise"
        else:
            event = f"write 0{draw.randrange(1, 4)} 0{draw.randrange(1, 3)} {draw.randrange(65536):04x}"
            yield f"{draw.choice(addresses):02} {draw.choice([event, 'flag busy 1', 'flag busy 0', 'flag service 1'])}"


def random_profile(draw, address):
    """A profile with a few rules."""
    rules = [f"[[rule]]\ndirection = \"{it}\"\nsubaddresses = {s}\ncounts = \"1-{draw.choice([1, 2])}\"\n"
             for it in ("receive", "transmit") for s in (1, 2, 3) if draw.randrange(3)]  # fmt: skip
    return f"address = {address}\nbroadcast = {draw.choice(['true', 'false'])}\n{''.join(rules)}"


@pytest.mark.parametrize("seed", range(60))
def test_each_terminal_answers_as_alone(tool, seed, tmp_path):
    """What comes to a terminal of the bus, played by `run`, gives just the lines of that terminal."""
    draw = random.Random(seed)
    addresses = draw.sample(range(31), draw.randrange(2, 6))
    write_files(tmp_path, {f"p{it}": random_profile(draw, it) for it in addresses})
    profiles = [f"p{it}" for it in addresses]
    for _ in range(4):
        write_files(tmp_path, {"script": "".join(f"{it}\n" for it in random_lines(draw, addresses))})
        together = run(tool, "bus", *profiles, "script", folder=tmp_path)
        assert together.status == 0
        for address in addresses:
            own = [it[3:] for it in together.output.decode().splitlines() if it.startswith(f"{address:02} ")]
            alone = run(tool, "bus", *profiles, "script", "--alone", f"{address}", folder=tmp_path)
            write_files(tmp_path, {"alone": alone.output})
            assert run(tool, "run", f"p{address}", "alone", folder=tmp_path).output.decode().splitlines() == own


@pytest.mark.parametrize("script", sorted(it.name for it in (TOP / "examples/bus").glob("*.script")))
def test_examples(tool, script):
    given = run(tool, "bus", "examples/bus/pump.toml", "examples/bus/valve.toml", f"examples/bus/{script}", folder=TOP)
    assert given.status == 0 and (b"warning" in given.errors) == (script != "transfer.script")


def test_examples_are_checked(tool):
    given = run(tool, "bus", "--check", "examples/bus/pump.toml", "examples/bus/valve.toml", "examples/bus/day.messages", folder=TOP)
    assert given.status == 1 and given.output.decode().splitlines()[-1] == "5 messages, 2 of them don't end well"


class Report(NamedTuple):
    """Messages that are checked, by `bus --check WORDS PROFILES script`."""

    name: str
    words: list
    profiles: list
    lines: list
    files: dict = {}


MIXED = ["# rate 50", "05 flag busy 1", "A rx 5 1 1: 0001", "A tx 5 3 1", "05 flag busy 0", "B rx 6 1 1 from 5 3: 0000", "A rx 9 1 1: 0001",
         "# rate 9000", "A rx all 1 1: 0001", "A tx 6 2 1", "B mode 7 4", "A rx 6 1 1 from 7 2: 0000", "# rate 2x", "A c 2c41"]  # fmt: skip
MARKED = ["<", ">", "&", '"', "'", "\\", "]]>", "-->", "%", ",", "é", "\ufffe", "\U0001f600"]


def report_of(name, words, profiles, *lines, files=None):
    return Report(name, words.split(), profiles.split(), [*lines], files or {})


def hostile(it):
    """Names of files and of messages with these characters."""
    cells = [f"a{it}b".replace('"', '""'), f"{it}y".replace('"', '""')]
    table = f'{HEAD}address,,5,,,,\ntransmit,"{cells[0]}",,2,1-2,,\ntransmit,"{cells[1]}",,9,1,,\n'
    return Report(f"hostile: {ascii(it)}", ["--names", f"na{it}mes", "--names", "6.csv"], [f"fi{it}ve", "six"],
                  ["# rate 7", "A tx 5 9 1", "A rx 5 1 1: 0001", "A tx 5 2 2"], {f"fi{it}ve": FILES["five"], f"na{it}mes": table})  # fmt: skip


REPORTS = [
    report_of("mixed", "", "five six seven", *MIXED),
    report_of("names and a date", "--names 6.csv --names 5.csv --names 7.csv --date 2026-01-31T12:00:00Z", "seven five six", *MIXED),
    report_of("other times", "--names 5.csv --response 4 --gap 100", "five six", *MIXED),
    report_of("all end well", "--names 5.csv", "five six", "A rx 5 1 1: 0001", "B tx 6 2 1"),
    report_of("what is left behind", "", "five six seven", "B mode 7 4", "05 flag busy 1", "A c 3021", "A c 2c41\nA gap", "A tx 5 3 1", "A rx 6 1 1 from 5 2"),
    report_of("no message", "", "five", "# nothing"),
    report_of("a message that is refused", "--names 5.csv", "five six", "A tx 5 2 1", "A txx 5 2 1"),
    report_of("several lines that are refused", "", "five six", "A txx 5 2 1", "A tx 5 2 1", "07 flag busy 1", "A <&\"gt", "flag busy 1"),
    report_of("a line of a subsystem that is refused", "--date 2026-01-31T12:00:00", "five six", "A tx 5 2 1", "07 flag busy 1"),
    *map(hostile, [*reports.CONTROLS, *reports.TURNING, *MARKED]),
]


def option_in(words, name):
    """The values of an option."""
    return [value for word, value in zip(words, words[1:]) if word == name]


def lines_told(one, it, shown):
    """The lines of text of an object of JSON that tells of a message."""
    front = f"{shown[one['file']]}:{it['line']}: " + ("" if it["name"] is None else f'"{shown[it["name"]]}": ')
    alone, in_run = ("; ".join(it[playing]) for playing in ("alone", "in_run"))
    if alone == in_run:
        return [front + alone]
    return [f"{front}{reasons} # {playing}" for reasons, playing in ((alone, "alone"), (in_run, "in the run")) if reasons]


LEFT = {"message": "in a message", "word": "with a word and no gap behind it", "reply": "with a reply to send",
        "shutdown": "with its transmitter shut down", "busy": "busy", "error": "with message error in the status that it keeps"}  # fmt: skip


def lefts_told(one):
    """What lines leave behind, behind their numbers."""
    return [(it["line"], f"leaves terminal {it['terminal']:02} {LEFT[it['left']]}" + (f" on bus {it['bus']}" if it["bus"] else "")) for it in one["leaves"]]


def loads_told(one):
    """The load of each bus."""
    return [f"{it['tenths'] // 10}.{it['tenths'] % 10} % of bus {it['bus']}" + ("" if it["fits"] else ": more than the bus has")
            for it in (one["load"] or {"buses": []})["buses"]]  # fmt: skip


def text_told(one, shown):
    """The lines of text that a whole object of JSON tells."""
    lines = [line for it in one["troubles"] for line in lines_told(one, it, shown)]
    lines += [f"{shown[one['file']]}:{line}: {told}" for line, told in lefts_told(one)]
    if one["load"]:
        lines += [f"rate {it['rate']}: {counted(it['messages'])}, {it['time']} us of each {it['period']} us on bus {it['bus']}" for it in one["load"]["rates"]]
    lines += [f"load: {it}" for it in loads_told(one)]
    return "".join(f"{line}\n" for line in [*lines, end_told(one["messages"], len(one["troubles"]), one["every_order"])])


def look_at_object(one, report, given, digests, shown):
    """The object of JSON beside what the text format gave."""
    assert misfits(one, "docs/bus.schema.json") == []
    assert list(one) == ["file", "profiles", "passes", "every_order", "messages", "troubles", "leaves", "load", "names", "fault", "sha256", *reports.VERSIONS, "date"]
    assert {it: one[it] for it in reports.VERSIONS} == reports.VERSIONS
    assert one["profiles"] == [{"file": it, "address": {"five": 5, "six": 6, "seven": 7}.get(it, 5), "sha256": digests.of(it),
                                "canonical_sha256": digests.canonical(it)} for it in report.profiles]  # fmt: skip
    assert one["names"] == [{"file": it, "sha256": digests.of(it)} for it in option_in(report.words, "--names")]
    assert [one["date"]] == (option_in(report.words, "--date") or [None])
    assert (one["file"], one["passes"], one["sha256"]) == ("script", given.status == 0, digests.of("script"))
    if given.status == 2:
        assert (one["every_order"], one["messages"], one["troubles"], one["leaves"], one["load"]) == (False, None, [], [], None)
        assert f"{one['fault']}\n".encode() == given.errors
    else:
        assert one["fault"] is None
        assert one["every_order"] == (one["passes"] and not one["leaves"])
        assert text_told(one, shown).encode() == given.output


def look_at_cases(suite, one, shown):
    """The test cases of JUnit beside the object of JSON."""
    cases = suite.findall("testcase")
    assert {(it.get("classname"), it.get("time"), len(it.attrib)) for it in cases} <= {("script", "0", 3)}
    if one["fault"]:
        case, = cases
        error, = case
        assert (case.get("name"), error.tag, error.attrib) == ("script", "error", {"message": one["fault"].split("\n")[0]})
        assert error.text == f"{one['fault']}\n"
        return
    assert len(cases) == one["messages"]
    told = {it["line"]: it for it in one["troubles"]}
    for case in cases:
        line, command, name = re.fullmatch(r"line (\d+): command ([0-9a-f]{4})(?:: (.*))?", case.get("name")).groups()
        it = told.pop(int(line), None)
        if it is None:
            assert not len(case)
            continue
        assert (command, name) == (it["command"], None if it["name"] is None else f'"{shown[it["name"]]}"')
        failure, = case
        assert (failure.tag, failure.attrib) == ("failure", {"message": "; ".join(it["alone"] or it["in_run"])})
        assert failure.text == "".join(f"{told_line}\n" for told_line in lines_told(one, it, shown))
    assert not told


def look_at_suite(text, one, shown):
    """JUnit beside the object of JSON."""
    assert not reports.NEVER & set(text)
    root = xml.fromstring(text)
    tests, failures, errors = (1, 0, 1) if one["fault"] else (one["messages"], len(one["troubles"]), 0)
    counts = {"tests": str(tests), "failures": str(failures), "errors": str(errors), "skipped": "0", "time": "0"}
    suite, = root
    assert (root.tag, root.attrib) == ("testsuites", counts)
    stamp = {"timestamp": one["date"]} if one["date"] else {}
    assert (suite.tag, suite.attrib) == ("testsuite", {"name": "rt1553-tool bus", **counts, **stamp})
    profiles = [(key, value) for it in one["profiles"] for key, value in (
        ("profile", shown[it["file"]]), ("profile_sha256", it["sha256"]), ("canonical_sha256", it["canonical_sha256"]))]  # fmt: skip
    names = [(key, value) for it in one["names"] for key, value in (("names", shown[it["file"]]), ("names_sha256", it["sha256"]))]
    own = [("sha256", one["sha256"])] if one["sha256"] else []
    every = [] if one["fault"] else [("every_order", str(one["every_order"]).lower())]
    leaves = [("leaves", f"line {line}: {told}") for line, told in lefts_told(one)]
    assert reports.properties_of(suite) == [*reports.VERSIONS.items(), *own, *profiles, *names, *every, *leaves, *(("load", it) for it in loads_told(one))]
    look_at_cases(suite, one, shown)


@pytest.mark.parametrize("report", REPORTS, ids=lambda it: it.name)
def test_reports_of_a_check(tool, report, tmp_path):
    """JSON and JUnit say what the text says, with the same status and errors."""
    write_files(tmp_path, {**FILES, "seven": SEVEN, **TABLES, **report.files, "script": "".join(f"{it}\n" for it in report.lines)})
    words = [it for it in report.words if it != "--date" and it not in option_in(report.words, "--date")]
    text = run(tool, "bus", "--check", *words, *report.profiles, "script", folder=tmp_path)
    found = {it: run(tool, "bus", "--check", "--format", it, *report.words, *report.profiles, "script", folder=tmp_path) for it in ("json", "junit")}
    assert {(it.status, it.errors) for it in found.values()} == {(text.status, text.errors)}
    shown = reports.Shown(tool)
    one, = reports.objects_of(found["json"].output.decode())
    look_at_object(one, report, text, reports.Digests(tool, tmp_path), shown)
    look_at_suite(found["junit"].output.decode(), one, shown)


def test_a_report_that_is_not_written(tool, tmp_path):
    """A profile that is refused gives no report; nor does an output that is full."""
    write_files(tmp_path, {**FILES, "script": ""})
    for it in ("json", "junit"):
        given = run(tool, "bus", "--check", "--format", it, "none", "script", folder=tmp_path)
        assert (given.status, given.output) == (2, b"")
        given = run("sh", "-c", f"exec {tool} bus --check --format {it} five script > /dev/full", folder=tmp_path)
        assert (given.status, given.errors) == (4, b"output: write failed\n")
