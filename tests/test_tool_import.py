"""What `rt1553-tool import` makes of tables as people save them, `--names` of commands that are never legal, and results with semicolons."""

import pytest
from programs import Row, check_row, run, with_files, write_files

FIVE = "address = 5\n"
KINDS = "address, broadcast, wraparound, accept_bus_control, vector, bit, receive, transmit, both, mode"
COUNTS = 'allowed is 1 to 32, as "1-3, 5"'
RULE = 'address = 5\n\n[[rule]]\ndirection = "receive"\nsubaddresses = 3\ncounts = 2\nto = "both"\n'
KNOWN = "; known are kind, value, subaddress, words, code, to, initial, legal, name"
MOST = 1_048_576


def table(name, text, status=0, output="", *errors):
    """A row: `import` of a table with this text."""
    told = "".join(f"t.csv:{it}\n" for it in errors)
    return Row(name, "import t.csv", status, output, told, files={"t.csv": text})


TABLES = [
    # --- the text
    table("a quote in a field without quotes", "kind,value\naddress,5\"\n", 2, "", " table: row 2, column 2: not CSV, a quote is misplaced or missing"),
    table("text behind a closing quote", 'kind,value\naddress,"5"1\n', 2, "", " table: row 2, column 2: not CSV, a quote is misplaced or missing"),
    table("a quote that stays open", 'kind,value\naddress,"5\nbit,1\n', 2, "", " table: row 2, column 2: not CSV, a quote is misplaced or missing"),
    table("CR alone", "kind,value\raddress,5\r", 0, FIVE),
    table("CR alone: the rows of faults", "kind,value\raddress,5\rbit,x\rvector,70000\r", 2, "",
          '3:2: error: value: "x": allowed is 0 to 65535, or 0x0000 to 0xffff', '4:2: error: value: "70000": allowed is 0 to 65535, or 0x0000 to 0xffff'),
    table("CR alone: the row of a quote", 'kind,value\raddress,5\rbit,1"\r', 2, "", " table: row 3, column 2: not CSV, a quote is misplaced or missing"),
    # --- what stands between fields
    table("tabs", "kind\tvalue\naddress\t5\n", 0, FIVE),
    table("semicolons in quotes, before commas", '"a;b",kind,value\n,address,5\n', 0, FIVE, '1:1: warning: the column "a;b" is left out' + KNOWN),
    table("commas in quotes, before semicolons", '"a,b";kind;value\n;address;5\n', 0, FIVE, '1:1: warning: the column "a,b" is left out' + KNOWN),
    table("an empty line, before semicolons", "\nkind;value\naddress;5\n", 0, FIVE),
    table("an empty row, before the header", ";;\nkind;value;\naddress;5;\n", 0, FIVE),
    # --- blanks, and capitals
    table("blanks at the ends", ' kind ,value\t," subaddress",words,to\naddress, 5 ,,,\n , ,,,\nreceive,,3 ,"2 ", both\n', 0, RULE),
    table("capitals", "Kind,VALUE,Subaddress,Words,To,Legal\nAddress,5,,,,\nReceive,,3,2,Both,Yes\n", 0,
          RULE + "legal = true\n"),
    table("truth values", "kind,value\naddress,5\nbroadcast,Yes\nwraparound,NO\naccept_bus_control,True\n", 0,
          "address = 5\nbroadcast = true\nwraparound = false\naccept_bus_control = true\n"),
    # --- the order of the rows, their spelling, and names
    table("the order and the spelling of the table", 'kind,value,subaddress,words,code,to,initial,name\nmode,,,,01,Both,,clock\nvector,0x00Ff,,,,,,\n'
          'transmit,,3,"1-4, 8",,,8001  a,status\naddress,05,,,,,,"the\nplug"\nbroadcast,YES,,,,,,\n', 0,
          'vector = 0x00Ff\n# the\\nplug\naddress = 5\nbroadcast = true\n\n# clock\n[[mode]]\ncodes = 1\nto = "both"\n\n'
          '# status\n[[rule]]\ndirection = "transmit"\nsubaddresses = 3\ncounts = "1-4, 8"\n\n[[initial]]\nsubaddress = 3\nwords = [0x8001, 0xa]\n'),
    table("capitals: the column of a fault as it is written", "Kind,VALUE,Subaddress,Words\naddress,5,,\nReceive,,3,02-Aug\n", 2, "",
          f'3:4: error: Words: "02-Aug": {COUNTS}'),
    # --- numbers
    *(table(f"a number that is too large: {it}", f"kind,value\naddress,{it}\n", 2, "", f'2:2: error: value: "{it}": allowed is 0 to 30')
      for it in ("31", "4294967295", "4294967296", "18446744073709551616", "0x100000000", "9" * 40)),
    table("a number that is too long to be told", f"kind,value\naddress,{'9' * 41}\n", 2, "", f'2:2: error: value: "{"9" * 40}..": allowed is 0 to 30'),
    # --- warnings
    table("a column left out explains a fault", "kind,value,subadress,words\naddress,5,,\nreceive,,3,2\n", 2, "",
          '1:3: warning: the column "subadress" is left out' + KNOWN, "1:1: error: no column is named subaddress"),
    table("no word counts", "kind,value,subaddress,words\naddress,5,,\nreceive,,3,\nmode,,,\n", 2, "",
          "3:4: warning: words: empty, so all counts 1 to 32: is this meant?", "1:1: error: no column is named code"),
    table("no column for word counts", "kind,value,subaddress,to\naddress,5,,\nreceive,,3,both\n", 0, RULE.replace("counts = 2\n", ""),
          "1:5: warning: no column is named words, so all counts 1 to 32: is this meant?"),
    table("no column for word counts, and no message", "kind,value\naddress,5\n", 0, FIVE),
    table("no word counts, and no fault", "kind,value,subaddress,Words,to\naddress,5,,,\nreceive,,3,,both\n", 0, RULE.replace("counts = 2\n", ""),
          "3:4: warning: Words: empty, so all counts 1 to 32: is this meant?"),
    table("words of four decimal digits", "kind,VALUE\naddress,5\nbit,8000\nvector,0100\n", 0, FIVE + "bit = 8000\nvector = 100\n",
          *(f"{it}:2: warning: VALUE: decimal, since it has no 0x: is this meant?" for it in (3, 4))),
    table("words that are not of four decimal digits", "kind,value\naddress,5\nbit,32768\nvector,0x8000\n", 0, FIVE + "bit = 32768\nvector = 0x8000\n"),
    # --- faults
    table("columns that are not there are told once", "kind,words\naddress,\nreceive,2\ntransmit,2\nmode,\nmode,1\n", 2, "",
          *(f"1:1: error: no column is named {it}" for it in ("value", "subaddress", "code"))),
    table("a mode code that must be legal: the row that says it last", "kind,value,code,to,legal\naddress,5,,,\nmode,,2-4,,no\nmode,,0x04,Both,No\nmode,,4,broadcast,yes\n"
          "mode,,8,,no\nmode,,8,,yes\n", 2, "", '3:5: error: legal: "no": mode code 2 must be legal', '4:5: error: legal: "No": mode code 4 must be legal'),
    table("a kind that is none", "kind,value\naddress,5\nrecieve,\n", 2, "", f'3:1: error: kind: "recieve": allowed is {KINDS}'),
    table("no address", "kind,value\nbit,1\n", 2, "", " error: no row is of the kind address; its value is 0 to 30"),
    table("a fault that would end its line", 'kind,value\naddress,"5\n\x1b[2K"\n', 2, "", '2:2: error: value: "5\\n\\u{1b}[2K": allowed is 0 to 30'),
    # --- names
    table("a name with which the profile is too large", f"kind,value,subaddress,words,name\naddress,5,,,\nreceive,,1,2,{'x' * (MOST - 60)}\n", 2, "",
          " table: row 3, column 5: names as long as this make a profile of over 1,048,576 bytes"),
    table("a name that is large once it is escaped", f"kind,value,subaddress,words,name\naddress,5,,,\nreceive,,1,2,{chr(1) * 300_000}\n", 2, "",
          " table: row 3, column 5: names as long as this make a profile of over 1,048,576 bytes"),
]  # fmt: skip


@pytest.mark.parametrize("row", TABLES, ids=lambda it: it.name)
def test_import(tool, row, tmp_path):
    check_row(tool, row, tmp_path)


# what clap says of an argument that is left out
MISSING = ("error: the following required arguments were not provided:\n  {}\n\nUsage: rt1553-tool import --check <TABLE> <P>\n\n"
           "For more information, try '--help'.\n")  # fmt: skip
# a table, a profile that means the same, and others
PUMP = "kind,value,subaddress,words,name\naddress,5,,,\nreceive,,1,2,speed\n"
CHECKS = with_files(
    {"t.csv": PUMP, "same": 'address = 5\n[[rule]]\ndirection = "receive"\nsubaddresses = "1"\ncounts = "2-2"\n', "six": "address = 6\n",
     "bad": "address = 31\n", "wrong.csv": PUMP.replace("receive", "recieve"), "left.csv": PUMP.replace("name\n", "my name\n")},
    Row("check: the same", "import --check t.csv same"),
    Row("check: the option after the files", "import t.csv same --check"),
    Row("check: another terminal", "import --check t.csv six", 1, 'address:           5 in t.csv, 6 in six\nreceive 1 "speed": count 2 legal in t.csv alone\n'),
    Row("check: warnings of the table", "import --check left.csv same", 0, "", f'left.csv:1:5: warning: the column "my name" is left out{KNOWN}\n'),
    Row("check: a table with a fault", "import --check wrong.csv same", 2, "", f'wrong.csv:3:1: error: kind: "recieve": allowed is {KINDS}\n'),
    Row("check: a profile that is refused", "import --check t.csv bad", 2, "", "bad:1:1: error: profile: root: address is out of range: 31; allowed is a whole number from 0 to 30\n"),
    Row("check: a profile that is not there", "import --check t.csv none", 4, "", "file: cannot read none: no such file\n"),
    Row("check: no profile", "import --check t.csv", 3, "", MISSING.format("<P>")),
    Row("a profile without --check", "import t.csv same", 3, "", MISSING.format("--check")),
)  # fmt: skip


@pytest.mark.parametrize("row", CHECKS, ids=lambda it: it.name)
def test_check(tool, row, tmp_path):
    # clap names the program's file
    check_row(tool, row._replace(errors=row.errors.replace("Usage: rt1553-tool", f"Usage: {tool.name}")), tmp_path)


def test_profile_of_the_largest_size_is_read(tool, tmp_path):
    text = "kind,value,subaddress,words,name\naddress,5,,,\nreceive,,1,2,{}\n"
    write_files(tmp_path, {"t.csv": text.format("x")})
    more = MOST - len(run(tool, "import", "t.csv", folder=tmp_path).output)
    write_files(tmp_path, {"t.csv": text.format("x" * (more + 1))})
    given = run(tool, "import", "t.csv", folder=tmp_path)
    assert (given.status, len(given.output), given.errors) == (0, MOST, b"")
    write_files(tmp_path, {"t.toml": given.output})
    assert run(tool, "lint", "t.toml", folder=tmp_path).status == 0


# --- names of commands that are never legal, and results in other layouts

NAMES = "kind,value,code,to,name\naddress,5,,,\nbroadcast,yes,,,\nmode,,2,broadcast,all status\nmode,,9-15,,reserved\nMode,,4,Both,shut down\n"
SCRIPT = "A c fc02\nA gap\nslot\n#> A s 2800\nA c 2c09\nA gap\nslot\n#> A s 2800\nA c 2804\nA gap\nslot\n#> A s 2800\n"
OTHERS = with_files(
    {"five": "address = 5\nbroadcast = true\n", "names.csv": NAMES, "s": SCRIPT},
    Row("names of commands that are never legal", "verify --names names.csv five s", 1,
        's:3: "all status": expected A s 2800, came nothing\ns:7: "reserved": expected A s 2800, came A s 2c00\n'
        's:11: "shut down": expected A s 2800, came A s 2c00\ns: differences: 3\n'),
    *(Row(f"results: {name}", "acceptance --against r five", 2, "", "r: results: row 3, column 2: not `none`, or 1 to 33 words of four hexadecimal digits\n",
          files={"r": text}) for name, text in (
        ("semicolons", "number;reply\n1;2800\n2;x\n"), ("tabs", "number\treply\n1\t2800\n2\tx\n"), ("CR alone", "number,reply\r1,2800\r2,x\r"),
        ("blanks", " number, reply\n1 ,2800\n 2, x \n"), ("an empty row", "number,reply\n,\n2,x\n"))),
)  # fmt: skip


@pytest.mark.parametrize("row", OTHERS, ids=lambda it: it.name)
def test_others(tool, row, tmp_path):
    check_row(tool, row, tmp_path)
