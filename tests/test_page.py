"""The page in a headless Chromium: what is typed, what it answers beside the programs, hostile texts, and how long it takes."""

import base64
import csv
import gzip
import re
import time
import tomllib

import play
import pytest
import rules
import vector_tables
from browser import Browser
from programs import TOP, encoded, run, write_files

VECTORS = [row for table in vector_tables.tables().values() for row in table.rows]
CANONICAL = sorted(TOP.glob("examples/canonical/*.rt1553"))
SCRIPTS = sorted(TOP.glob("examples/validation/**/*.script")) + sorted(TOP.glob("examples/scripts/*.script"))
FIVE = "address = 5\n"
# a profile, and a script for it, as they are typed
TYPED = """address = 9
broadcast = true
bit = 0xbeef
[[rule]]
direction = "receive"
subaddresses = 3
counts = "1-2, 8"
[[rule]]
direction = "transmit"
subaddresses = 3
counts = 2
[[mode]]
codes = 19
[[initial]]
subaddress = 3
words = [1, 255]
"""
FIELDS = {"address": "9", "receive-3": "1-2, 8", "transmit-3": "2", "broadcast": True, "own-code-19": True, "bit": "beef",
          "initial-3": "0001 00ff"}  # fmt: skip
SCRIPT = "A c 4862\nA d 1111\nA d 2222\nA gap\nslot\nA c 4c62\nA gap\nslot\nslot\nslot\nB c 4c13\nB gap\nslot\nslot\n"
# a profile, a script for it in which messages end in each way, and these ways
ENDINGS = """address = 5
[[rule]]
direction = "receive"
subaddresses = 1
counts = "1-4"
[[rule]]
direction = "transmit"
subaddresses = 1
counts = "1-4"
"""
ENDED = "".join(f"{it}\n" for it in (
    *("A c 2822", "A d 1111", "A d 2222", "A gap", "slot"), *("A c 2c42", "A gap", "slot"), *("A c 2822", "A d 1111", "A gap", "slot"),
    *("A c 2822", "A d 1111", "B c 2c02", "B gap", "slot"), "A c 2c02", "A gap", *("A c 2c22", "A gap", "slot", "B c 2c02", "B gap", "slot"),
    *("flag busy 1", "A c 2c22", "A gap", "slot", "flag busy 0"), *("A c 3021", "A d 0001", "A gap", "A c 3000"),
    *("A c 2c02", "A gap", "A c 2c02", "slot"), *("A c 2c04", "A gap", "slot", "B c 2c02", "B gap", "slot"), *("A c 2822", "A d 0001 1", "A gap"),
    "A c 2822"))  # fmt: skip
ENDS = {("done", ""), ("illegal", ""), ("in error", "wrong word count"), ("in error", "invalid word or noise"), ("superseded", ""),
        ("done", "reply dropped by a command on the other bus"), ("busy", ""), ("other", ""), ("ignored", "during a reply"), ("ignored", "no gap after a command"),
        ("done", "transmitter shut down"), ("open", "")}  # fmt: skip
HOSTILE = ['<img src=x onerror="window.hit=1">', '"><script>window.hit=1</script>', "\u202e\0\ufeff", "9" * 5000, "-1", "1e3", "1-", "4-1",
           "1,,2", "ffff " * 80, "{{}}", "';window.hit=1;'", "１２", "A c 2862\u2028slot", "\n\n\n", "٣", "x" * (1 << 20)]  # fmt: skip
PROFILES = [it for it in sorted(TOP.glob("examples/profiles/*.toml")) if (TOP / f"examples/canonical/{it.stem}.rt1553").exists()]
# what the page has beside the lines of a script, up to the first that is refused
BESIDE = """(text, script) => {
    rt1553.restore({ first: text, second: null, script, messages: '', mode: 'script' });
    const { answers, faultLine } = rt1553.result;
    return faultLine ? answers.slice(0, faultLine - 1) : answers;
}"""
# what messages are expanded to, and what is played and shown then
EXPANDED = """(text, messages) => {
    rt1553.restore({ first: text, second: null, script: '', messages, mode: 'messages' });
    const { expansion, script, result, messageEditor } = rt1553;
    return { faults: expansion.faults, script, transcript: result.transcript, beside: messageEditor.answers };
}"""
COLUMNS = "number line bus kind address subaddress code words command transmitter ended why data status bits handed".split()
# the rows that the page gets, by the names of their fields
ROWS = """(text, script) => {
    const told = rt1553.engine.messages(text, script).text.split('\\n').slice(0, -1).map((line) => line.split(','));
    return told.map((it) => Object.fromEntries(COLUMNS.map((name, n) => [name, it[n]])));
}""".replace("COLUMNS", str(COLUMNS))
# what the page gives for a canonical text and a script, bytes that are UTF-8
PLAYED = """(text, script) => {
    const told = rt1553.engine.run(text, script);
    return [told.status, told.text, told.fault && `${told.fault}\\n`];
}"""


@pytest.fixture(scope="module")
def browser(page, tmp_path_factory):
    """A browser in which the page is open. It may have reported no error in the end, nor asked for anything outside."""
    made = Browser(tmp_path_factory.mktemp("browser"))
    try:
        made.open(page.as_uri())
        yield made
        assert made.errors == []
        assert [it for it in made.requests if not it.startswith(("about:", "file:", "data:", "blob:"))] == []
    finally:
        made.close()


def canonical(program, folder, text):
    """The canonical text of a profile, or None where that is refused."""
    write_files(folder, {"profile": text})
    given = run(program, "canon", "profile", folder=folder)
    return None if given.status else given.output.decode()


def set_field(browser, name, value):
    """Sets a field of the form as a person does."""
    browser.call("""(name, value) => {
        const field = document.querySelector(`[data-field="${name}"]`);
        if (typeof value === 'boolean') field.checked = value; else { field.focus(); field.value = value; }
        field.dispatchEvent(new Event('input', { bubbles: true }));
    }""", name, value)  # fmt: skip


def type_script(browser, text):
    """Types a script in the place of the one that is there."""
    browser.value("(() => { rt1553.setMode('script'); const { area } = rt1553.scriptEditor; area.focus(); area.select(); })()")
    browser.type(text)


def test_profile_and_script_are_typed(browser, page, shipped, tmp_path):
    browser.open(page.as_uri())
    pick = "p.value = [...p.options].find((it) => it.text.includes('(smallest)')).value"
    browser.value(f"(() => {{ const p = document.getElementById('example'); {pick}; p.onchange(); }})()")
    for name, value in FIELDS.items():
        set_field(browser, name, value)
    type_script(browser, SCRIPT)
    wanted = canonical(shipped.rt1553, tmp_path, TYPED)
    assert browser.value("rt1553.terminals[0].text") == wanted
    write_files(tmp_path, {"script": SCRIPT})
    given = run(shipped.rt1553, "run", "profile", "script", folder=tmp_path)
    assert (given.status, browser.value("rt1553.result.transcript")) == (0, given.output.decode())
    beside = re.sub(r"\s*\n\s*", "|", browser.value("document.querySelector('#script-editor .beside').innerText"))
    assert "hand receive own 03 1111 2222|A s 4800" in beside
    rows = re.sub(r"\s*\n\s*", "|", browser.value("document.querySelector('#rows .space').innerText"))
    assert rows == "1|1|A|rx|9|3|2|done|1111 2222|4800|receive own 03 1111 2222|2|6|A|tx|9|3|2|done|0001 00ff|4800|3|11|B|mode|9|mode 19|done|beef|4800"


def test_what_is_wrong_stands_at_its_field(browser):
    invalid = "document.querySelector('[data-field=address]').getAttribute('aria-invalid')"
    set_field(browser, "address", "31")
    assert (browser.value(invalid), browser.value("document.getElementById('judged').className")) == ("true", "judged bad")
    set_field(browser, "address", "9")
    assert (browser.value(invalid), browser.value("document.getElementById('judged').className")) == ("false", "judged good")


def test_vectors(browser, shipped, tmp_path, record_property):
    """Each case of tests/vectors whose profile has a canonical text, and whose script is UTF-8, through the module."""
    played = 0
    for row in VECTORS:
        if row.words and row.words[0] != "run":
            continue
        # without words the profile is that of address 5
        profile, script = [encoded(row.files[it]) for it in row.words[1:]] if row.words else (encoded(FIVE), encoded(row.stdin))
        text = canonical(shipped.rt1553, tmp_path, profile)
        if text is None or script.decode(errors="replace").encode() != script:
            continue
        given = browser.call(PLAYED, text, script.decode())
        assert given == [row.status, *(encoded(it).decode() for it in (row.output, row.errors))], row.name
        played += 1
    record_property("vectors played", played)
    assert played >= 80


def test_scripts_as_the_program_plays_them(browser, shipped, tmp_path):
    """Each script of examples/validation and examples/scripts, to the terminal of each canonical text of the examples: 500 and more."""
    cases = [(text, script) for text in CANONICAL for script in SCRIPTS]
    assert len(cases) >= 500
    for text, script in cases:
        wanted = run(shipped.rt1553, "run", text, script)
        given = browser.call(PLAYED, text.read_text(encoding="utf-8"), script.read_text(encoding="utf-8"))
        assert given == [wanted.status, wanted.output.decode(), wanted.errors.decode()], (text.name, script.name)


def printed_rows(program, text, script):
    """The rows that `rt1553-tool messages` prints for a script, each by the names of its columns, and whether it plays the whole script."""
    told = run(program, "messages", "--format", "csv", text, script)
    return list(csv.DictReader(told.output.decode().splitlines())), told.status == 0


def test_rows_as_the_program_prints_them(browser, shipped):
    """The rows for each script of the examples and each canonical text; where a line is refused, messages that are open there follow."""
    for text in CANONICAL:
        for script in SCRIPTS:
            wanted, is_whole = printed_rows(shipped.tool, text, script)
            given = browser.call(ROWS, text.read_text(encoding="utf-8"), script.read_text(encoding="utf-8"))
            assert (given if is_whole else given[: len(wanted)]) == wanted, (text.name, script.name)
            assert len(given) <= len(wanted) + 2


def test_rows_of_each_ending(browser, shipped, tmp_path):
    """The list has a row for each message as the program prints it, however it ended."""
    text = canonical(shipped.rt1553, tmp_path, ENDINGS)
    write_files(tmp_path, {"text": text, "script": ENDED})
    wanted, is_whole = printed_rows(shipped.tool, tmp_path / "text", tmp_path / "script")
    assert is_whole and {(it["ended"], it["why"]) for it in wanted} == ENDS
    browser.call(BESIDE, text, ENDED)
    shown = browser.value("rt1553.list.seen.map(({ n, differs, other, ...told }) => told)")
    assert shown == sorted(wanted, key=lambda it: int(it["line"]))


def test_messages_of_two_terminals(browser, shipped, tmp_path):
    """A message that two terminals end otherwise is marked, and shows how each ends it."""
    texts = [canonical(shipped.rt1553, tmp_path, it) for it in (ENDINGS, ENDINGS.replace('"transmit"', '"receive"'))]
    shown = browser.call("""(first, second) => {
        rt1553.restore({ first, second, script: 'A c 2c21\\nA gap\\nslot\\nslot\\nA c 2c02\\nA gap\\nslot\\n', messages: '', mode: 'script' });
        return rt1553.list.seen.map((it) => [it.ended, it.differs, it.other?.ended ?? null]);
    }""", *texts)  # fmt: skip
    assert shown == [["done", True, "illegal"], ["done", True, "done"]]


def test_answers_stand_beside_their_lines(browser):
    """Each answer beside the line that it answers, as a model of the terminal has it."""
    for path in PROFILES:
        text = TOP / f"examples/canonical/{path.stem}.rt1553"
        setup = play.setup_of(tomllib.loads(path.read_text(encoding="utf-8")))
        for script in SCRIPTS:
            terminal = rules.Terminal(setup)
            answers = ["".join(play.transcript(terminal, [event])) for _, event in play.events_of(script.read_bytes())]
            given = browser.call(BESIDE, text.read_text(encoding="utf-8"), script.read_text(encoding="utf-8"))
            assert given == answers, (path.name, script.name)


def changed_texts(text):
    """A canonical text, and others that begin as it."""
    lines = text.splitlines(keepends=True)
    yield from (text, text + "\n", text[:-1], text + "x", text.replace("\n", "\r\n"), text.replace("rt1553 2", "rt1553 3", 1), "")
    for n in range(1, len(lines), 5):
        yield "".join(lines[:n] + lines[n + 1 :])
        yield "".join(lines[:n] + [lines[n].replace(" ", "  ", 1)] + lines[n + 1 :])


@pytest.mark.parametrize("path", CANONICAL, ids=lambda it: it.stem)
def test_canonical_texts_are_judged_as_by_the_program(browser, shipped, tmp_path, path):
    for text in changed_texts(path.read_text(encoding="utf-8")):
        status, fault = browser.call("(it) => { const told = rt1553.engine.check(it); return [told.status, told.fault]; }", text)
        write_files(tmp_path, {"text": text})
        wanted = run(shipped.rt1553, "check", "text", folder=tmp_path)
        if re.match("rt1553 [12]\n", text):
            assert (status, fault) == (wanted.status, wanted.errors.decode().rstrip("\n")), text
        else:
            assert (status, fault) == (2, "canonical text: line 1"), text


@pytest.mark.parametrize("one", CANONICAL, ids=lambda it: it.stem)
def test_terminals_are_compared_as_by_the_program(browser, shipped, one):
    for other in CANONICAL:
        texts = [it.read_text(encoding="utf-8") for it in (one, other)]
        status, script = browser.call("(p, q) => { const told = rt1553.engine.compare(p, q); return [told.status, told.text]; }", *texts)
        wanted = run(shipped.rt1553, "compare", one, other)
        assert (status, script or "same\n") == (wanted.status, wanted.output.decode()), other


def test_messages_as_expand(browser, shipped, tmp_path):
    """Messages of each form, expanded by the page and by the program."""
    lines = [f"A {kind} {to} 3 {n}{':' + ' 00ff' * n if kind == 'rx' else ''}" for to in ("5", "6", "all") for kind in ("rx", "tx") for n in (1, 2, 32)]
    more = ("", " tx", " rx: 1234", " tx 31", " tx 0", " 31", " constructor")
    lines += [f"B mode {to} {code}{it}" for to in ("5", "all") for code in range(32) for it in more]
    lines += ["A rx 5 3 2 from 6 4: 0011 0022", "A rx all 3 2 from 6 4: 0011 0022", "B status 6 busy", "B status 31", "B data 0011", "A rx 5 3 2: 1",
              "A rx 5 0 1: 0000", "A rx 5 1 33: 0000", "A tx 5 1 1 ", "A  tx 5 1 1", "C rx 5 1 1: 0000", "A", "", "# x", "slot", "flag busy 2", "A c 2862",
              "A tx 5 1 1:", "A rx 5 1 1: 00FF", "B data 00Ff", "A d 00fF", "A tx 5 1 1 from 6 1", "A toString 5", "A rx 5 1 1 from 5 1: 0000",
              "A rx 5 1 1 from 6: 0000", "A rx 5 1 1  from  6  1 : 0000", "A status 6 reserved1", "A status 6 x", "A tx 5 1 1 # x", "A rx 5 3 2 0011 0022", "A rx 5 3 2",
              "A rx 5 3 2 from 6 4"]  # fmt: skip
    for line in lines:
        write_files(tmp_path, {"messages": f"{line}\n"})
        wanted = run(shipped.tool, "expand", "messages", folder=tmp_path)
        given = browser.call("(text) => { rt1553.setMode('messages'); rt1553.messageEditor.value = text; rt1553.play(); return rt1553.expansion; }", f"{line}\n")
        script = None if given["faults"] else "".join(f"{it}\n" for it in given["lines"])
        assert script == (None if wanted.status else wanted.output.decode()), line


STATED = [
    ["A rx 5 1 2: 0011 0022", "#> hand receive own 01 0011 0022", "#> A s 2800", "A mode 5 2", "#> A s 2c00"],
    ["A tx 5 1 3", "#> A s 2800", "#~ A d ....", "#+ x", "#> A d 0003", "#> A d 0004", "#+ y", "slot"],
    ["A rx 5 3 2 from 6 4: 0011 0022", "#~ hand *", "#+ 0011", "#> A s 2800", "A rx 6 3 2 from 5 4: 0011 0022", "#> A s 2800", "#> hand", "#> handy"],
    ["B tx 5 14 1", "#+ z", "#> B s 2800", "# a comment", "#> B d 0001", "", "#> B d 0002"],
    ["#> A s 2800", "A mode 5 2", "#>A s 2800", "#> A s 2800", "B status 6 busy", "#> x", "B data 00Ff", "#~ *", "flag busy 1", "#> y"],
    ["A mode all 1", "#> hand sync", "#> A s 2810", "A rx all 2 1: 00ff", "#> A s 2800", "#> hand receive broadcast 02 00ff"],
]  # fmt: skip


@pytest.mark.parametrize("lines", STATED, ids=lambda it: it[0])
def test_stated_answers_behind_messages(browser, shipped, tmp_path, lines):
    """They go to the events of the message, as with `expand --for`; what is played is the same without them."""
    messages = "".join(f"{line}\n" for line in lines)
    write_files(tmp_path, {"messages": messages, "profile": FIVE})
    wanted = run(shipped.tool, "expand", "--for", "profile", "messages", folder=tmp_path)
    text = canonical(shipped.rt1553, tmp_path, FIVE)
    told = browser.call(EXPANDED, text, messages)
    assert (told["faults"], told["script"]) == ([], wanted.output.decode())
    write_files(tmp_path, {"text": text, "script": wanted.output.decode()})
    assert told["transcript"] == run(shipped.rt1553, "run", "text", "script", folder=tmp_path).output.decode()
    shown = browser.call(EXPANDED, text, "".join(f"{line}\n" for line in lines if not re.match("#[>~+]", line)))
    assert (shown["transcript"], [it for it in told["beside"] if it]) == (told["transcript"], [it for it in shown["beside"] if it])


REPLACES = {
    "a script is opened": "rt1553.open(new File(['A c 2c02\\nA gap\\nslot\\n'], 'a.script'))",
    "messages are opened": "rt1553.open(new File(['A mode 5 2\\n'], 'a.messages'))",
    "messages are expanded": "document.getElementById('expand').click()",
    "a second terminal": "document.getElementById('second').click()",
    "a canonical text is opened": "rt1553.open(new File([rt1553.terminals[0].text.replace(/address ../, 'address 07')], 'a.rt1553'))",
    "what tells them apart": "document.getElementById('tell').click()",
    "an example": "(() => { const it = document.getElementById('example'); it.value = '3'; it.onchange(); })()",
}


def test_replaced_texts_come_back(browser, page):
    """What a file, an example or a button replaces comes back with "Undo", the last one first."""
    browser.open(page.as_uri())
    type_script(browser, SCRIPT)
    states = []
    for name, replaces in REPLACES.items():
        states.append(browser.value("rt1553.shared()"))
        browser.value(replaces)
        assert browser.value("rt1553.shared()") != states[-1], name
    for state in reversed(states):
        browser.value("document.getElementById('undo').click()")
        assert browser.value("rt1553.shared()") == state
    assert states[0]["script"] == SCRIPT and browser.value("document.getElementById('undo').hidden")


def test_files_are_saved(browser, page, tmp_path):
    """The menu \"Save\" writes what is shown."""
    browser.open(page.as_uri())
    type_script(browser, SCRIPT)
    browser.send("Page.setDownloadBehavior", behavior="allow", downloadPath=str(tmp_path))
    wanted = {"save-text": ("terminal.rt1553", "rt1553.terminals[0].text"), "save-script": ("bus.script", "rt1553.script"),
              "save-transcript": ("bus.transcript", "rt1553.result.transcript")}  # fmt: skip
    for button, (name, value) in wanted.items():
        browser.value(f"document.getElementById('{button}').click()")
        end = time.monotonic() + 20
        while not (tmp_path / name).exists() and time.monotonic() < end:
            time.sleep(0.05)
        assert (tmp_path / name).read_text(encoding="utf-8") == browser.value(value)


def test_hostile_texts(browser, page):
    """They give a fault and do nothing else, in each field and in links."""
    browser.open(page.as_uri())
    names = browser.value("[...rt1553.form.fields.keys()]")
    for text in HOSTILE:
        for name in names[:12]:
            set_field(browser, name, text)
        browser.call("""(text) => {
            for (const editor of [rt1553.scriptEditor, rt1553.messageEditor, rt1553.textEditor]) { editor.area.value = text; editor.read(); }
            for (const mode of ['messages', 'script']) { rt1553.setMode(mode); rt1553.play(); }
            document.getElementById('filter').value = text;
            document.getElementById('filter').oninput();
            dispatchEvent(new Event('beforeprint'));
        }""", text)  # fmt: skip
    for link in ("1.", "1.AAAA", "1.%3Cscript%3E", "2.x", "1." + "A" * 100000, "<img src=x onerror=window.hit=1>"):
        browser.call("async (link) => { location.hash = link; await new Promise((done) => setTimeout(done, 30)); }", link)
    assert browser.value("window.hit ?? null") is None
    assert browser.value("document.querySelectorAll('main img, main script, main a, main iframe').length") == 0
    assert browser.value("rt1553.engine.check(rt1553.terminals[0].text).status") == 0


def test_small_link_does_not_fill_memory(browser):
    """A link that unpacks to 32 MB, and one that carries other things, give nothing."""
    state = "{ first: 'x'.repeat(1 << 25), second: null, script: '', messages: '', mode: 'script' }"
    for it in (state, "{ first: 7, script: null }"):
        assert browser.value(f"rt1553.pack({it}).then(rt1553.unpack)") is None


def test_link_carries_all(browser, page):
    browser.open(page.as_uri())
    browser.value("rt1553.toggleSecond()")
    set_field(browser, "transmit-1", "7-8")
    browser.value("rt1553.writeLink()")
    seen = "({ ...rt1553.shared(), verdict: rt1553.verdict, transcript: rt1553.result.transcript, second: rt1553.result.second })"
    before, link = browser.value(seen), browser.value("location.href")
    browser.open(link)
    assert browser.value(seen) == before and before["verdict"].startswith("Different terminals")


def test_keys_and_names(browser, page):
    """Arrow keys choose messages, and each field has a name for those who hear the page."""
    browser.open(page.as_uri())
    browser.value("rt1553.list.box.focus()")
    for _ in range(3):
        browser.key("ArrowDown", 40)
    assert browser.value("rt1553.list.at") == 2
    nameless = "!(it.labels?.length || it.getAttribute('aria-label') || it.textContent.trim() || it.title)"
    fields = "[...document.querySelectorAll('input, select, textarea, button')].filter((it) => !it.hidden)"
    assert browser.value(f"{fields}.filter((it) => {nameless}).map((it) => it.outerHTML)") == []


def lengthened(script, count):
    """A script of this many lines, of copies of one."""
    lines = script.splitlines(keepends=True)
    return "".join((lines * (count // len(lines) + 1))[:count])


@pytest.mark.slow
def test_long_scripts(browser, page, shipped, tmp_path, record_property):
    """1,000 lines, and 100,000 in the worker, as the program plays them. How long that takes is printed."""
    browser.open(page.as_uri())
    script, text = browser.value("rt1553.scriptEditor.value"), browser.value("rt1553.terminals[0].text")
    for count in (1000, 100_000):
        write_files(tmp_path, {"text": text, "script": lengthened(script, count)})
        wanted = run(shipped.rt1553, "run", "text", "script", folder=tmp_path).output.decode()
        took = browser.call("""async (script) => {
            rt1553.scriptEditor.value = script;
            rt1553.result = null;
            const began = performance.now();
            rt1553.play();
            const returned = performance.now() - began;
            while (!rt1553.result) await new Promise((done) => setTimeout(done, 5));
            return [returned, performance.now() - began];
        }""", lengthened(script, count))  # fmt: skip
        assert browser.value("rt1553.result.transcript") == wanted
        assert browser.value("rt1553.result.answers.filter(Boolean).map((it) => `${it}\\n`).join('')") == wanted
        keys = sorted(browser.call("""async () => {
            const { area } = rt1553.scriptEditor, times = [];
            area.focus();
            for (let n = 0; n < 11; n++) {
                area.setSelectionRange(0, 0);
                const began = performance.now();
                document.execCommand('insertText', false, '#');
                times.push(performance.now() - began);
                await new Promise((done) => setTimeout(done, 20));
            }
            return times;
        }"""))  # fmt: skip
        told = f"{took[0]:.0f} ms until the page goes on, {took[1]:.0f} ms until all is shown; a key takes {keys[5]:.0f} ms, at most {keys[-1]:.0f}"
        print(f"{count} lines: {told}")
        record_property(f"{count} lines", told)


def test_sizes(page):
    """What is promised of the page's size."""
    text = page.read_text(encoding="utf-8")
    module = max(re.findall(r'"(H4sI[\w+/=]+)"', text), key=len)
    assert len(gzip.decompress(base64.b64decode(module))) < 120_000 and len(text.encode()) < 300_000
    assert sum(len(it.read_text(encoding="utf-8").splitlines()) for it in TOP.glob("page/*.js")) < 2000
