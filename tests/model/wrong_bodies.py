"""Wrong bodies of the terminal, played against the model of the rules in `rules.py`.

    wrong_bodies.py find EDIT..     the seed, below 400, of a random script that the wrong body of each edit answers otherwise
    wrong_bodies.py check EDIT..    plays the script of the line `seed: N` of each edit again

An edit is a file crates/NAME/must-fail/*.edit. `check` takes half a minute for each, and `find` some minutes: this is no part
of the gate. With None in place of a seed the wrong body is right on each script.
"""

import pathlib
import random
import re
import shutil
import subprocess
import sys
import tempfile
import tomllib

import canonical
import pieces
import rules

TOP = pathlib.Path(__file__).resolve().parents[2]
sys.path.append(str(TOP / "scripts"))

from edits import applied  # noqa: E402

SCRIPTS, LINES = 400, 150
# the player, and its line of crates.txt; it reads a canonical text and a script, parted by a line `!`
NEEDED = "player: bus_terminal bus_script bus_canon byte_streams\n"
PLAYER = """\
use byte_streams::{FromWrite, MemorySource};
use std::io::{self, Read};

fn main(rt: HostRuntime) -> io::Result<()> {
    let mut text = Vec::new(rt.alloc());
    rt.stdin().read_to_end(&mut text)?;
    let (bytes, mut at) = (text.as_slice(), 0);
    while bytes[at] != b'!' {
        at += 1;
    }
    if let Ok(normal) = bus_canon::read_canon(&bytes[..at]) {
        let mut terminal = bus_terminal::Terminal::power_up(normal.setup(), normal);
        let mut reader = MemorySource::new(&bytes[at + 2..], 65536, None);
        let _ = bus_script::run_script(&mut terminal, &mut reader, &mut FromWrite::new(rt.stdout()));
    }
    Ok(())
}
"""


class Script(pieces.Script):
    """A script with more of what is rare. In place of comments it has short runs on both buses, and in place of slots
    without a reply what comes while the terminal waits for a status word, or replies."""

    def subsystem(self):
        if self.chance.random() < 0.5:
            self.line(f"flag {self.chance.choice(rules.FLAGS)} {int(self.chance.random() < 0.7)}")
        else:
            super().subsystem()

    def answered(self, bus, words=0):
        super().answered(bus, words)
        if self.chance.random() < 0.2:
            self.command(bus, self.address, 1, 0, 2)
            super().answered(bus)

    def receive(self):
        self.chance.choice([super().receive, super().receive, self.mode_code, self.subsystem, self.to_all])()

    def mode_code(self):
        for _ in range(self.chance.randint(1, 3)):
            if self.chance.random() < 0.3:
                self.subsystem()
            super().mode_code()

    def any_command(self, bus):
        low = self.chance.choice([1, 2, 2, 3, 5, 8, 17, 18, 18])
        self.command(bus, self.any_address(), self.chance.choice([0, 1, 1]), self.chance.choice([0, 31, *self.subaddresses]), low)

    def notes(self):
        for _ in range(self.chance.randint(2, 8)):
            bus = self.chance.choice("AB")
            self.chance.choice([lambda: self.any_command(bus), lambda: self.data(bus, 1), lambda: self.gap(bus),
                                lambda: self.line(f"{bus} noise"), lambda: self.slots(1)])()

    def to_all(self):
        bus, (subaddress, count), transmit = self.bus(), self.place(), self.chance.randrange(3)
        self.command(bus, 31, 0, subaddress, count)
        self.data(bus, self.chance.choice([0, 0, 0, 1]))
        self.command(bus, self.address, int(transmit > 0), subaddress, count)
        self.data(bus, 0 if transmit else count)
        self.answered(bus, count)

    def silent(self):
        bus, (subaddress, count) = self.bus(), self.place()
        if self.chance.random() < 0.4:
            self.command(bus, self.chance.choice([self.address, self.address, 31]), 0, subaddress, count)
            self.command(bus, self.other_address(), 1, subaddress, count)
        elif self.chance.random() < 0.6:
            self.command(bus, self.address, 1, subaddress, count)
        else:
            self.command(bus, self.address, 1, 0, self.chance.choice([2, 4, 8, 8, 16, 18, 19]))
        self.gap(bus)
        self.slots(self.chance.choice([0, 0, 1, 2]))
        for _ in range(self.chance.randint(1, 3)):
            self.chance.choice([lambda: self.any_command(self.chance.choice("AB")), self.subsystem, self.anything])()
        self.answered(bus, count)


def differing(edit, seeds):
    """The first of these seeds whose script the terminal with this wrong body answers otherwise; or None."""
    texts, fault = applied(edit.read_text(), str(edit.parents[1]))
    texts = {f"{edit.parents[1].name}/{path}": text for path, text in texts.items()}
    with tempfile.TemporaryDirectory() as room:
        crates, cases = pathlib.Path(room, "crates"), pathlib.Path(room, "cases")
        shutil.copytree(TOP / "crates", crates, ignore=shutil.ignore_patterns("out"))
        (crates / "player/src").mkdir(parents=True)
        for path, text in {**texts, "player/src/main.rt": PLAYER}.items():
            (crates / path).write_text(text)
        pathlib.Path(room, "crates.txt").write_text((TOP / "crates.txt").read_text() + NEEDED)
        cases.mkdir()
        for seed in seeds:
            text, setup = pieces.profile_of(seed)
            lines = Script(random.Random(seed), setup.address, LINES).lines
            script = b"".join(line + b"\n" for line in lines if not line.startswith(b"#"))
            canon = canonical.text_of(canonical.reached_of(tomllib.loads(text)))
            (cases / f"{seed:06}").write_bytes(canon.encode() + b"!\n" + script)
            (cases / f"{seed:06}.stdout").write_bytes(pieces.wanted_of(setup, script)[0])
        words = ["rt", "try", "--steps", "1", "--cases", str(cases)]
        ran = subprocess.run(words, cwd=crates / "player", capture_output=True, text=True)
    said = re.findall(r"^case=(\d+) (.*)$", ran.stderr, re.M)
    if fault or len(said) < len(seeds):
        sys.exit(f"{edit}: {fault or ran.stderr}")
    return next((int(seed) for seed, how in said if "status=0" not in how or "output=expected" not in how), None)


def main():
    job, *edits = sys.argv[1:]
    found = []
    for edit in [pathlib.Path(it).resolve() for it in edits]:
        seeds = range(SCRIPTS) if job == "find" else [int(re.search(r"^seed: (\d+)$", edit.read_text(), re.M)[1])]
        found.append(differing(edit, seeds))
        print(f"{edit.parents[1].name}/{edit.stem}: seed: {found[-1]}", flush=True)
    sys.exit(None in found)


if __name__ == "__main__":
    main()
