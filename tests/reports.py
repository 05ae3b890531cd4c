"""What the reports of `rt1553-tool` must be like that machines read, as Python's own readers of JSON, XML and HTML read them.

What a format says is compared with the text format: each script, its status, its clauses, each difference, each fault and all counts.
A page has no code, and the page of `coverage` says what its JSON says.
"""

import hashlib
import html.parser
import json
import pathlib
import re
import urllib.parse
import xml.etree.ElementTree as xml

from programs import run, toolchain
from schemas import misfits

HTML, SVG = "{http://www.w3.org/1999/xhtml}", "{http://www.w3.org/2000/svg}"
VOID = {"area", "base", "br", "col", "hr", "img", "input", "link", "meta", "source", "track", "wbr"}
CONTROLS = [chr(it) for it in range(1, 32) if it != 10] + [chr(127)] + [chr(it) for it in range(128, 160)]
TURNING = [chr(it) for it in [*range(0x2028, 0x202F), *range(0x2066, 0x206A)]]
NEVER = set(CONTROLS + TURNING)
# the versions that a report tells, which `--version` prints
VERSIONS = {"program": "0.1", "toolchain": toolchain(), "canonical": "2"}
DIGESTS = ["sha256", "profile_sha256", "canonical_sha256"]


def lines_of(output):
    """The lines of what was printed; only line feeds end them."""
    return output.decode().split("\n")[:-1]


class Shown(dict):
    """Texts as the program prints them, found by what it says of a file of this name in a folder that is not there."""

    def __init__(self, tool):
        super().__init__()
        self.tool = tool

    def __missing__(self, text):
        told = run(self.tool, "toml", f"no/{text}").errors.decode()
        self[text] = told.removeprefix("file: cannot read no/").removesuffix("\n").removesuffix(": no such file")
        return self[text]


class Digests:
    """SHA-256 digests of files by their names, as Python computes them; None of one that is not there."""

    def __init__(self, tool, folder, profiles=""):
        self.tool, self.folder, self.profiles = tool, pathlib.Path(folder), profiles

    def of(self, name):
        try:
            return hashlib.sha256((self.folder / name).read_bytes()).hexdigest()
        except OSError:
            return None

    def canonical(self, name):
        given = run(self.tool, "canon", name, folder=self.folder)
        return hashlib.sha256(given.output).hexdigest() if given.status == 0 else None

    def of_script(self, one):
        """The digests of the object of a script whose profile, if it is there, is loaded."""
        inside = one["profile"] is not None and ".." not in one["profile"].split("/")
        profile = pathlib.Path(self.profiles, one["profile"]) if inside else None
        own = profile and self.of(profile)
        return [self.of(one["file"]), own, own and self.canonical(profile)]


# what the text format tells


class Told:
    """What `verify --summary` prints of scripts, each of which is printed under one of these names, and what it ends with."""

    # how a warning of a script ends
    warning_ends = (": warning: the script has no event", ": warning: the script states no answer")

    def __init__(self, given, names):
        self.status, self.told = given.status, lines_of(given.errors)
        self.warnings = [line for line in self.told if line.endswith(self.warning_ends)]
        self.faults = [line for line in self.told if not line.endswith(self.warning_ends)]
        self.passed, self.unjudged, self.wrong, self.clauses = {}, {}, {name: [] for name in names}, []
        for line in lines_of(given.output):
            self.take(line, next((name for name in sorted(names, key=len, reverse=True) if line.startswith(f"{name}:")), None))

    def take(self, line, name):
        """A line, which begins with this name or with none."""
        rest = line[len(name or ""):]
        if name and (found := re.fullmatch(r": passed \(answers: (\d+)\)", rest)):
            self.passed[name] = int(found[1])
        elif name and (found := re.fullmatch(r": not judged: (.*)", rest)):
            self.unjudged[name] = found[1]
        elif name and (found := re.fullmatch(r":(\d+): expected (.*), came (.*)", rest)):
            self.wrong[name].append((int(found[1]), *(None if it == "nothing" else it for it in found.groups()[1:])))
        elif found := re.fullmatch(r"(?:clause (.*)|(no clause|all)): (\d+) of (\d+) scripts pass(?:, ([1-9]\d*) not judged)?", line):
            self.clauses.append((found[1] or found[2], int(found[3]), int(found[4]), int(found[5] or 0)))
        else:
            assert name and rest == f": differences: {len(self.wrong[name])}", line


# JSON


def objects_of(text):
    """The objects of a report, each a line of printable characters of ASCII."""
    assert text == "" or text.endswith("\n")
    assert [it for it in text if not (" " <= it <= "~" or it == "\n")] == []
    return [json.loads(line) for line in text.split("\n")[:-1]]


def look_at_json(text, told, names, profile, shown):
    """The objects of JSON, which say what the text format tells."""
    found = objects_of(text)
    assert [it for one in found for it in misfits(one, "docs/verify.schema.json")] == []
    assert [one["file"] for one in found] == names
    for one in found:
        assert list(one) == ["file", "profile", "passes", "result", "answers", "warning", "clauses", "differences", "fault",
                             *DIGESTS, "names", "names_sha256", *VERSIONS, "date"]  # fmt: skip
        assert {it: one[it] for it in VERSIONS} == VERSIONS
        look_at_object(one, told, shown[one["file"]])
        assert profile in (None, one["profile"])
    assert [one["fault"] for one in found if one["fault"]] == told.faults
    assert [f"{shown[one['file']]}: warning: {one['warning']}" for one in found if one["warning"] and one["result"] != "not judged"] == told.warnings
    assert sorted(summed(found)) == sorted(told.clauses)
    return found


def look_at_digests(found, digests, names=None, date=None):
    """The digests, the table of names and the date in the objects of JSON."""
    for one in found:
        assert [one[it] for it in DIGESTS] == digests.of_script(one)
        assert (one["names"], one["names_sha256"], one["date"]) == (names, names and digests.of(names), date)


def rule_before(script, line):
    """The text of the last comment of a script before this line; None where there is none."""
    comments = [it[2:] for it in script.split(b"\n")[:line] if it.startswith(b"# ") and not it.startswith(b"# Profile: ")]
    return comments[-1].decode("latin-1") if comments else None


def look_at_rules(found, folder):
    """The rules of differences in the objects of JSON, of scripts whose comments are printed as they are."""
    for one in found:
        for it in one["differences"]:
            rule = rule_before((pathlib.Path(folder) / one["file"]).read_bytes(), it["line"])
            assert it["rule"] == rule or not re.fullmatch(r"[ -\[\]-~]*", rule or "")


def look_at_object(one, told, name):
    assert [(it["line"], it["expected"], it["came"]) for it in one["differences"]] == told.wrong[name]
    assert one["passes"] == (name in told.passed) == (one["result"] == "passes")
    assert (one["result"] == "not judged") == (name in told.unjudged)
    assert name not in told.unjudged or one["warning"] == told.unjudged[name]
    assert (one["result"] == "differs") == bool(one["differences"])
    assert (one["result"] == "not played") == (one["fault"] is not None)
    assert (one["fault"] is None) == (one["answers"] is not None)
    assert one["passes"] == (one["fault"] is None and not one["differences"] and not one["warning"])
    assert not one["passes"] or one["answers"] == told.passed[name]


def summed(found):
    """How many scripts pass, and of how many nothing was judged, clause by clause, those that name none, and all."""
    rows = {}
    for one in found:
        for clause in one["clauses"]:
            rows.setdefault(clause, []).append(one)
    none = [one for one in found if not one["clauses"]]
    return [counted(*it) for it in [*rows.items(), *([("no clause", none)] if none else []), ("all", found)]]


def counted(clause, found):
    return clause, sum(one["passes"] for one in found), len(found), sum(one["result"] == "not judged" for one in found)


# JUnit


def in_words(one):
    """The difference of a JSON object as the text format tells it, and its rule."""
    expected, came = (it or "nothing" for it in (one["expected"], one["came"]))
    return f"expected {expected}, came {came}" + (f" # {one['rule']}" if one["rule"] else "")


def look_at_junit(text, found, shown):
    """JUnit beside the objects of JSON."""
    assert not NEVER & set(text)
    root = xml.fromstring(text)
    assert (root.tag, [it.tag for it in root]) == ("testsuites", ["testsuite"])
    suite = root[0]
    failures, errors = (sum(bool(one[it]) for one in found) for it in ("differences", "fault"))
    skipped = sum(one["result"] == "not judged" for one in found)
    wanted = {"tests": str(len(found)), "failures": str(failures), "errors": str(errors), "skipped": str(skipped), "time": "0"}
    head = found[0]
    assert root.attrib == wanted
    assert suite.attrib == {"name": "rt1553-tool verify", **wanted, **({"timestamp": head["date"]} if head["date"] else {})}
    assert [len(root.findall(f".//{it}")) for it in ("testcase", "failure", "error", "skipped")] == [len(found), failures, errors, skipped]
    assert [it.tag for it in suite] == ["properties"] + ["testcase"] * len(found)
    table = [("names", shown[head["names"]]), ("names_sha256", head["names_sha256"])] if head["names"] else []
    assert properties_of(suite) == [*VERSIONS.items(), *table]
    for case, one in zip(suite[1:], found):
        look_at_case(case, one, shown[one["file"]], "no profile" if one["profile"] is None else shown[one["profile"]])


def properties_of(element):
    assert all(list(it.attrib) == ["name", "value"] for it in element.findall("properties/property"))
    return [(it.get("name"), it.get("value")) for it in element.findall("properties/property")]


def look_at_case(case, one, name, profile):
    answers = {} if one["answers"] is None else {"assertions": str(one["answers"])}
    assert case.attrib == {"name": name, "classname": profile, **answers, "time": "0"}
    properties = [(it, one[it]) for it in DIGESTS if one[it]] + [("clause", it) for it in one["clauses"]]
    assert properties_of(case) == properties
    skipped, warned = (one["warning"] if (one["result"] == "not judged") == it else None for it in (True, False))
    kinds = {"properties": properties, "failure": one["differences"], "error": one["fault"], "skipped": skipped, "system-err": warned}
    assert [it.tag for it in case] == [tag for tag, it in kinds.items() if it]
    if one["differences"]:
        failure = case.find("failure")
        assert failure.get("message") == f"differences: {len(one['differences'])}"
        assert failure.text == "".join(f"{name}:{it['line']}: {in_words(it)}\n" for it in one["differences"])
    assert not one["fault"] or case.find("error").attrib == {"message": one["fault"]}
    assert not skipped or case.find("skipped").attrib == {"message": skipped}
    assert not warned or words_of(case.find("system-err")) == f"warning: {warned}"


# HTML


class Elements(html.parser.HTMLParser):
    """The elements of a page as a browser's reader finds them, which must close each that they open."""

    def __init__(self):
        super().__init__()
        self.open, self.all, self.attributes = [], [], []

    def handle_starttag(self, tag, attrs):
        self.handle_startendtag(tag, attrs)
        if tag not in VOID:
            self.open.append(tag)

    def handle_startendtag(self, tag, attrs):
        self.all.append(tag)
        self.attributes += attrs

    def handle_endtag(self, tag):
        assert self.open and self.open.pop() == tag


def words_of(element):
    """The texts of an element."""
    return "".join(element.itertext())


def texts_of(body, tag):
    return [words_of(it) for it in body.findall(f"{HTML}{tag}")]


def rows_in(table):
    return [[words_of(cell) for cell in row] for row in table.iter(f"{HTML}tr")]


def body_of(text):
    """The body of a page that is well-formed, runs no code and loads nothing."""
    assert not NEVER & set(text)
    assert text.startswith("<!DOCTYPE html>\n")
    root = xml.fromstring(text)
    reader = Elements()
    reader.feed(text)
    reader.close()
    assert reader.open == []
    assert not {"script", "iframe", "object", "embed", "link", "img", "form", "a"} & set(reader.all)
    assert [name for name, _ in reader.attributes if name.startswith("on") or name in ("src", "href", "style")] == []
    assert not re.search(r"url\(|@import|javascript:", text)
    style = root.find(f"{HTML}head/{HTML}style").text
    assert "prefers-color-scheme:dark" in style
    assert "@media print" in style
    return root.find(f"{HTML}body")


def digest_row(what, name, own, canonical, shown):
    """The row of a file, with the digests that there are."""
    told = {"SHA-256": own, "SHA-256 of its canonical text": canonical}
    return [what, shown[name] + "".join(f"{of} {digest}" for of, digest in told.items() if digest)]


def head_rows(found, shown):
    """What was tested: versions, date, table of names, and each profile once."""
    head = found[0]
    first = {one["profile"]: one for one in reversed(found) if one["profile"] is not None}
    profiles = dict.fromkeys(one["profile"] for one in found if one["profile"] is not None)
    rows = [[what, head[it]] for what, it in zip(("rt1553-tool", "toolchain", "canonical text", "date"), (*VERSIONS, "date")) if head[it]]
    rows += [digest_row("names", head["names"], head["names_sha256"], None, shown)] if head["names"] else []
    return rows + [digest_row("profile", it, first[it]["profile_sha256"], first[it]["canonical_sha256"], shown) for it in profiles]


def script_row(one, shown):
    profile, answers = shown[one["profile"] or ""], "" if one["answers"] is None else str(one["answers"])
    return [shown[one["file"]], profile, one["result"], answers, "".join(one["clauses"]), one["sha256"] or ""]


def fields_of(one, has_rules):
    """The row of a difference, with its rule where a difference of its script has one."""
    return [str(one["line"]), *([one["rule"] or ""] if has_rules else []), one["expected"] or "nothing", one["came"] or "nothing"]


def look_at_page(text, found, clauses, shown):
    """A page beside the objects of JSON, and the rows clause by clause of the text."""
    body = body_of(text)
    passed = sum(one["passes"] for one in found)
    assert texts_of(body, "h1")[0] == f"Tests of a terminal: {passed} of {len(found)} files pass"
    tables = body.findall(f"{HTML}table")
    counts = {
        "files": len(found),
        "files that pass": passed,
        "files that differ": sum(bool(one["differences"]) for one in found),
        "files not judged": sum(one["result"] == "not judged" for one in found),
        "files refused or not read": sum(bool(one["fault"]) for one in found),
        "answers stated": sum(one["answers"] or 0 for one in found),
    }
    assert rows_in(tables[0]) == [*head_rows(found, shown), *([what, str(count)] for what, count in counts.items())]
    assert rows_in(tables[1]) == [["clause", "passed", "of", "not judged"], *([clause, *map(str, counts)] for clause, *counts in clauses)]
    assert rows_in(tables[2]) == [["file", "profile", "result", "answers", "clauses", "SHA-256"], *(script_row(one, shown) for one in found)]
    warned = [f"{shown[one['file']]}: {'not judged: ' * (one['result'] == 'not judged')}{one['warning']}" for one in found if one["warning"]]
    assert [it for it in texts_of(body, "p") if it in warned] == warned
    assert ("Warnings" in texts_of(body, "h2")) == bool(warned)
    others = [one for one in found if one["result"] in ("differs", "not played")]
    assert texts_of(body, "h3") == [shown[one["file"]] for one in others]
    wrong = [one["differences"] for one in others if one["differences"]]
    fields = [[fields_of(it, any(other["rule"] for other in differences)) for it in differences] for differences in wrong]
    assert [rows_in(it)[1:] for it in tables[3:]] == fields


def drawn_lines(page, name):
    """The lines of the script of the events that are drawn below its heading."""
    below, lines = False, []
    for it in xml.fromstring(page).find(f"{HTML}body"):
        if it.tag == f"{HTML}h3":
            below = words_of(it) == name
        elif below and it.tag == f"{HTML}details":
            # a details of many messages holds those of each
            lines += [int(found[1]) for title in it.iter(f"{SVG}title") if (found := re.match(r"line (\d+): ", words_of(title)))]
    return lines


# what recordings show

OUTCOMES = ["done", "busy", "illegal", "in_error", "superseded", "open"]


def message_in_words(one):
    """The message of an object of `coverage --format json`, but for its word count."""
    if "mode" not in one:
        return f"{one['message']} {one['subaddress']}"
    bit = f" with T/R {int(one['command'], 16) >> 10 & 1}" if "command" in one else ""
    return f"{one['message']} {one['code']}{bit}, {one['mode']}"


def look_at_coverage(text, found, profile, recordings, has_names, shown):
    """The page of what recordings show, beside the object of JSON."""
    body, legal, illegal = body_of(text), found["legal"], found["illegal"]
    assert texts_of(body, "h1")[0] == f"What recordings show of a terminal: {found['came']} of {len(legal)} legal messages came"

    def came(one):
        return "yes" if any(one[it] for it in OUTCOMES) else "never"

    def fields(one, is_legal):
        name = [f'"{shown[one["name"]]}"' if one["name"] else ""] if has_names else []
        return [message_in_words(one), str(one.get("count", "")), *name, *[came(one)] * is_legal, *(str(one[it]) for it in OUTCOMES)]

    def table(rows, is_legal):
        head = ["message", "words", *["name"] * has_names, *["came"] * is_legal, "done", "busy", "illegal", "in error", "superseded", "open"]
        return [head, *(fields(one, is_legal) for one in rows)]

    tables = body.findall(f"{HTML}table")
    numbers = {"": len(legal), " that came": found["came"], " that were done": found["done"], " that never came": len(legal) - found["came"]}
    assert rows_in(tables[0]) == [
        ["profile", shown[profile]],
        *(["recording", shown[it]] for it in recordings),
        *([f"legal messages{what}", str(count)] for what, count in numbers.items()),
        ["illegal messages that came", str(len(illegal))],
    ]
    assert rows_in(tables[1]) == table(legal, True)
    assert [row.get("class") for row in tables[1].find(f"{HTML}tbody")] == ["differs" if came(one) == "never" else None for one in legal]
    assert [rows_in(it) for it in tables[2:]] == ([table(illegal, False)] if illegal else [])
    assert texts_of(body, "p")[1:] == ([] if illegal else ["None."])


# SARIF


def look_at_sarif(text, lines):
    """SARIF beside what `lint --format json` tells of the same files. Its run."""
    assert text.count("\n") == 1
    log = objects_of(text)[0]
    assert set(log) == {"version", "$schema", "runs"}
    assert (log["version"], log["$schema"], len(log["runs"])) == ("2.1.0", "https://json.schemastore.org/sarif-2.1.0.json", 1)
    found = log["runs"][0]
    assert (set(found), found["columnKind"], set(found["tool"])) == ({"tool", "columnKind", "results"}, "unicodeCodePoints", {"driver"})
    driver = found["tool"]["driver"]
    assert (set(driver), driver["name"], driver["version"]) == ({"name", "version", "rules"}, "rt1553-tool", "0.1 (canonical text 2)")
    for rule in driver["rules"]:
        assert (set(rule), set(rule["shortDescription"])) == ({"id", "shortDescription"}, {"text"})
        assert rule["shortDescription"]["text"]
    assert [rule["id"] for rule in driver["rules"]] == list(dict.fromkeys(one["ruleId"] for one in found["results"]))
    assert found["results"] == [result_of(one) for one in lines]
    return found


def result_of(one):
    """The result of SARIF that a line of JSON tells."""
    uri = ("file://" if one["file"].startswith("/") else "") + urllib.parse.quote(one["file"], safe="/-._~")
    region = {"region": {"startLine": one["line"], "startColumn": one["column"]}} if one["line"] else {}
    place = {"physicalLocation": {"artifactLocation": {"uri": uri}, **region}}
    return {"ruleId": one["name"] or "NoEffect", "level": one["severity"], "message": {"text": one["message"]}, "locations": [place]}
