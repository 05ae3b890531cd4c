#!/usr/bin/env python3
"""Proves and builds what users run, and keeps what it proves for later builds.

    scripts/build.py                              bin/rt1553; then the first answer of README.md
    scripts/build.py tool                         bin/rt1553-tool as well
    scripts/build.py library [BUILT]              the library for C, C++, Python and Rust, bin/library; or BUILT/bin/library, over the
                                                  crates that `rt ci` has proved in BUILT
    scripts/build.py page [BUILT]                 the page for a web browser, bin/rt1553.html; or BUILT/bin/rt1553.html, in the same way
    scripts/build.py again                        bin/rt1553, and what else of these is there, over the files as they are
    scripts/build.py libraries FOLDER NAME..      the crates below these, where scripts/must-fail.py looks for them
    scripts/build.py copy FOLDER                  a copy of the crates, for `rt ci`: without edits and unit tests, which have runs of their own

Each crate is proved from nothing by one `rattle build`, with the words that `rt ci` gives it, over the statements of the libraries below.
As many run side by side as there are processors, or as RT_JOBS says, and 3 GiB of memory for each: first what rt1553 stands on,
and of that what has most to prove above it, with two jobs on four processors, and each before the rest where processors are scarce.
Processors for which no crate is ready become further jobs of the proofs that start.

What is proved is kept in ~/.cache/rt1553, or in the folder that RT1553_KEPT names. It has to be the user's own: who can write to it
can have a build take what nobody proved.

    proved/NAME-SUM/    what was made of a crate, and `sums`, the sum of each of its files; SUM is that of all that it was made from
    new/                what is being made. What a killed build leaves there, the next one removes
    lock                held by a build until it ends, however it ends; others wait

So a build of this clone or another proves what has changed and what stands on it. With ANEW=1 it proves all.

A line tells of each crate that it is proved, and how long that took, or that it was kept. All that the tools print stands in
out/build.log. Only proofs are judged here: the tests are for `make test`, and what else `rt ci` refuses, as contracts that no call can
meet, for the gate.

With TARGET=aarch64 the programs and the library are for ARM64 and in bin/aarch64; the first answer is played under qemu.
"""
import fcntl
import glob
import hashlib
import os
import re
import shutil
import signal
import subprocess
import sys
import tempfile
import time
from pathlib import Path

from toolchain import Toolchain

TOP = os.path.dirname(os.path.dirname(os.path.realpath(__file__)))
LOG = f"{TOP}/out/build.log"
# the crate of a program, and what it is called
PROGRAMS = {"rt1553_program": "rt1553", "rt1553_tool_program": "rt1553-tool"}
# what can be asked for: the crate, and what is left in bin/
WANTED = {"": ("rt1553_program", "rt1553"), "tool": ("rt1553_tool_program", "rt1553-tool"), "library": ("rt1553_c", "library"), "page": ("rt1553_page", "rt1553.html")}
# what makes the library and the page of the archives of their crates
MADE_BY = {"library": ["bash", "scripts/library.sh"], "page": ["python3", "scripts/page.py"]}
# the calls of the page are for WebAssembly
PAGE, WASM = "rt1553_page", "wasm64-unknown-unknown"
# crates of unit tests, which are run by `rt try` (tests/test_units.py)
UNIT_TESTS = ("terminal_tests", "rt1553_tests")
# the first answer of README.md: what is typed, and what comes
GIVEN, ANSWER = r"A c 2c02\nA gap\nslot\n", "A s 2800"
# bytes of memory for each process that proves
MEMORY = 3 << 30
# the processor that is built for, this one or aarch64; as the toolchain and its verdicts name it; where what is built is left
TARGET = os.environ.get("TARGET", "")
MACHINE = {"": "x86_64-unknown-linux-gnu cpu=x86-64-v2", "aarch64": "aarch64-unknown-linux-gnu"}.get(TARGET) or sys.exit("TARGET is aarch64, or not set")
BIN = f"bin/{TARGET}".rstrip("/")
# seconds after which a line tells what is being proved
SILENCE = 25
# of a crate, how many versions are kept: those that were taken last
VERSIONS = 4
# to be changed where a change of this script makes other libraries of the same files
SCHEME = "1"
# the last line of a proof from nothing that trusts the toolchain and the statements of libraries, and nothing else
PROVED = r"logic=proved functions=\d+( axioms=\d+)?( target={})? sum={} native=nat,char,string logic-built=trusted libraries-built=trusted statements=trusted"
# what is refused beside it: a pattern that takes every value, a term that a tactic chose
REFUSED = re.compile(
    r"^(warning: calls of a tactic that chose a term|(\./)?(src|specs)/\S+ warning: this pattern binds a variable)",
    re.M,
)
# and in a library, since a crate above may cite it, also a term that a tactic chose in a proof
REFUSED_BELOW = re.compile(r"^(\./)?proofs/\S+ note: `\S+` has chosen a term", re.M)


def files_of(folder, *parts):
    """The files below these parts of a folder, or below all of it, by their paths in it."""
    walked = [(at, names) for part in parts or [""] for at, _, names in os.walk(f"{folder}/{part}")]
    return {os.path.relpath(f"{at}/{it}", folder): Path(at, it).read_bytes() for at, names in walked for it in names}


def sums_of(files):
    """A line for each file, in order: its path and the sum of its bytes."""
    return "".join(sorted(f"{path} {hashlib.sha256(it).hexdigest()}\n" for path, it in files.items() if path != "sums"))


def minutes(seconds):
    """A time as people read it."""
    return f"{int(seconds) // 60} min {int(seconds) % 60:02d} s"


class Kept:
    """What builds have proved. It is this build's alone until it ends."""

    def __init__(self):
        cache = os.environ.get("XDG_CACHE_HOME") or os.path.expanduser("~/.cache")
        self.folder = os.path.abspath(os.environ.get("RT1553_KEPT") or f"{cache}/rt1553")
        os.makedirs(self.folder, mode=0o700, exist_ok=True)
        mine = os.stat(self.folder)
        if mine.st_uid != os.geteuid() or mine.st_mode & 0o022:
            sys.exit(f"{self.folder} is not yours alone to write to: change its owner and mode, or name another folder by RT1553_KEPT.")
        self.lock = open(f"{self.folder}/lock", "w", encoding="utf-8")
        try:
            fcntl.flock(self.lock, fcntl.LOCK_EX | fcntl.LOCK_NB)
        except BlockingIOError:
            print(f"Another build works in {self.folder}: this one waits for it.", flush=True)
            fcntl.flock(self.lock, fcntl.LOCK_EX)
        shutil.rmtree(f"{self.folder}/new", ignore_errors=True)
        for it in ("proved", "new"):
            os.makedirs(f"{self.folder}/{it}", exist_ok=True)

    def room(self):
        """A new folder, which is removed by the next build at latest."""
        return tempfile.mkdtemp(dir=f"{self.folder}/new")

    def take(self, label):
        """Where this is kept, if it is, whole; else None."""
        at = f"{self.folder}/proved/{label}"
        if os.environ.get("ANEW") or not os.path.isdir(at):
            return None
        try:
            is_whole = Path(at, "sums").read_text(encoding="utf-8") == sums_of(files_of(at))
        except (OSError, ValueError):
            is_whole = False
        if is_whole:
            os.utime(at)
            return at
        print(f"        {label.rpartition('-')[0]}: what was kept is damaged", flush=True)
        shutil.rmtree(at)
        return None

    def keep(self, label, room):
        """Keeps what lies in the room, whole or not at all, and removes versions of the crate that were not taken for longest."""
        at = f"{self.folder}/proved/{label}"
        Path(room, "sums").write_text(sums_of(files_of(room)), encoding="utf-8")
        shutil.rmtree(at, ignore_errors=True)
        os.rename(room, at)
        others = {*glob.glob(f"{self.folder}/proved/{label.rpartition('-')[0]}-*")} - {at}
        for it in sorted(others, key=os.path.getmtime)[: 1 - VERSIONS]:
            shutil.rmtree(it)
        return at


class Crate:
    """A crate: its line of crates.txt, its files as they are when the build begins, and what it stands on."""

    def __init__(self, line, known, toolchain):
        head, _, names = line.partition(":")
        self.name, self.is_archive, self.toolchain = head.split()[0], "staticlib" in head.split(), toolchain
        files = files_of(f"{TOP}/crates/{self.name}", "src", "specs", "proofs")
        self.files = {path: toolchain.named(f"crates/{self.name}/{path}", it) for path, it in files.items()}
        self.is_program = "src/main.rt" in self.files
        self.libraries = [known[it] for it in names.split() if it in known]
        self.of_toolchain = ["std", *[it for it in names.split() if it not in known]]
        # all libraries of the repository below it, each after those that it stands on
        self.below = list(dict.fromkeys(it for library in self.libraries for it in [*library.below, library]))
        # about how long its proof takes, in lines
        self.lines = 150 + sum(it.count(b"\n") for path, it in self.files.items() if path.startswith("src/"))
        self.is_library = not self.is_program and not self.is_archive
        # a library is for each processor
        self.machine = WASM if self.name == PAGE else MACHINE
        self.target = ["--target", self.machine] if self.machine == WASM or TARGET and not self.is_library else []
        made_from = [SCHEME, toolchain.sum, head.split(), self.of_toolchain, sums_of(self.files), [it.label for it in self.libraries], *self.target]
        self.label = f"{self.name}-{hashlib.sha256(repr(made_from).encode()).hexdigest()[:32]}"
        # what is made of it: a program's object, an archive for C, or a library
        self.product = f"{self.name}.o" if self.is_program else f"lib{self.name}.a" if self.is_archive else f"{self.name}.rlib"

    def copy(self, to):
        """Copies its files to the folder, so that what is edited while it is proved is not read."""
        for path, it in self.files.items():
            os.makedirs(os.path.dirname(f"{to}/{path}"), exist_ok=True)
            Path(to, path).write_bytes(it)

    def words(self, made, to, jobs):
        """The command that proves and builds it, over what is made of the crates below."""
        at, words = self.toolchain.folder, ["--crate-name", self.name, f"src/{'main' if self.is_program else 'lib'}.rt"]
        for name in self.of_toolchain:
            words += ["--extern", f"{name}={at}/rlibs/{name}.rlib"]
        words += ["-L", f"dependency={at}/rlibs"]
        for it in self.libraries:
            words += ["--extern", f"{it.name}={made[it.name]}/{it.product}"]
        for it in self.below:
            words += ["-L", f"dependency={made[it.name]}"]
        words += ["--antt-project", f"{at}/rattle/logic/antt-project.json", "--logic-built", f"{at}/logic_built"]
        words += ["--jobs", str(jobs), "--links", f"{self.name}="]
        if self.is_library:
            words += ["--statements"]
        else:
            words += ["--toolchain", f"{at}/toolchain", "--backend", "llvm", *self.target, *["--crate-type", "staticlib"] * self.is_archive]
        return [f"{at}/bin/rattle", "build", *words, "-o", f"{to}/{self.product}"]

    def is_proved(self, said):
        """Whether a proof that ended well and said this is one that `rt ci` passes."""
        lines = re.findall(r"^logic=.*", said, re.M)
        is_proved = len(lines) == 1 and re.fullmatch(PROVED.format(self.machine, self.toolchain.logic), lines[0])
        return is_proved and not REFUSED.search(said) and not (self.is_library and REFUSED_BELOW.search(said))


def crates_for(toolchain):
    """The crates of crates.txt by their names, each as it is given to the toolchain."""
    crates = {}
    for line in Path(TOP, "crates.txt").read_text(encoding="utf-8").splitlines():
        if line and not line.startswith("#"):
            it = Crate(line, crates, toolchain)
            crates[it.name] = it
    return crates


class Group:
    """A group of processes that ends with this one, however that ends: its leader waits for the end of a pipe that this one holds."""

    def __init__(self):
        ends, self.held = os.pipe()
        quiet = {"stdout": subprocess.DEVNULL, "stderr": subprocess.DEVNULL}
        self.leader = subprocess.Popen(["sh", "-c", "read _; kill -9 0"], stdin=ends, process_group=0, **quiet)
        os.close(ends)

    def start(self, words, **how):
        """Starts a process of the group. A proof that gives no memory back before it ends takes 2 % less processor time."""
        env = {**os.environ, "MIMALLOC_PURGE_DELAY": "-1"}
        return subprocess.Popen(words, stdin=subprocess.DEVNULL, stderr=subprocess.STDOUT, process_group=self.leader.pid, env=env, **how)


class Progress:
    """What is told: a line for each crate that is done, and what goes on."""

    def __init__(self):
        self.told, self.is_terminal = time.monotonic(), sys.stdout.isatty()

    def line(self, text, end="\n"):
        """Writes a line, over the line of a terminal that tells what goes on."""
        print(f"\r\033[K{text}" if self.is_terminal else text, end=end, flush=True)
        self.told = time.monotonic()

    def tick(self, text):
        """Tells what goes on, each second on a terminal, and else where nothing was told for long."""
        if self.is_terminal and time.monotonic() - self.told >= 1:
            self.line(f"        {text}"[: shutil.get_terminal_size().columns - 1], end="")
        elif not self.is_terminal and time.monotonic() - self.told > SILENCE:
            self.line(f"        {text}")


class Proof:
    """A proof that runs: the process, where it leaves what it makes, and the file of what it prints."""

    def __init__(self, crate, jobs, nice, made, kept, group):
        self.crate, self.jobs, self.began, self.room, self.copy = crate, jobs, time.monotonic(), kept.room(), kept.room()
        self.said = tempfile.TemporaryFile("w+", errors="replace")
        crate.copy(self.copy)
        self.process = group.start(crate.words(made, self.room, jobs), cwd=self.copy, stdout=self.said)
        os.setpriority(os.PRIO_PROCESS, self.process.pid, nice)

    def end(self):
        """The exit status, what was printed and the cost, once it has ended; else None."""
        pid, status, used = os.wait4(self.process.pid, os.WNOHANG)
        if not pid:
            return None
        self.process.returncode = os.waitstatus_to_exitcode(status)
        shutil.rmtree(self.copy)
        self.said.seek(0)
        cost = f"{minutes(time.monotonic() - self.began)}, {used.ru_utime + used.ru_stime:.0f} s of processor time, {used.ru_maxrss / 1e6:.1f} GB, {self.jobs} jobs"
        return self.process.returncode, self.said.read(), cost


class Build:
    """A build of some crates and of all that they stand on."""

    def __init__(self, kept, log, toolchain):
        self.kept, self.log, self.progress, self.group, self.crates = kept, log, Progress(), Group(), crates_for(toolchain)
        # where what is made of a crate lies; what is to be proved, in the order in which it is started; what runs
        self.made, self.left, self.running, self.proved, self.told = {}, [], [], 0, 0
        # what was said by the proof of each crate that failed
        self.failed = {}
        memory = 1024 * int(re.search(r"MemAvailable:\s+(\d+)", Path("/proc/meminfo").read_text(encoding="utf-8"))[1])
        self.processors = int(os.environ.get("RT_JOBS") or max(1, min(len(os.sched_getaffinity(0)), memory // MEMORY)))

    def done(self, crate, at, how):
        """Notes and tells that a crate is done; a program can be used from now on."""
        self.made[crate.name] = at
        self.told += 1
        self.progress.line(f"[{self.told:2d}/{len(self.all)}] {crate.name:<22s} {how}")
        if crate.name in PROGRAMS:
            self.leave_program(crate)

    def look(self, wanted):
        """Takes what is kept. What is below a crate that is kept is looked at only if another needs it."""
        self.all = {it for crate in wanted for it in [*crate.below, crate]}
        needed = set(wanted)
        for crate in reversed(self.crates.values()):
            if crate in needed:
                if at := self.made.get(crate.name) or self.kept.take(crate.label):
                    self.made[crate.name] = at
                else:
                    needed.update(crate.below)
                    self.left.insert(0, crate)
        self.told = len(self.all - needed)
        for crate in [it for it in self.crates.values() if it in needed and it.name in self.made]:
            self.done(crate, self.made[crate.name], "kept")

    def order(self, wanted):
        """Orders what is left: the first that is wanted and what is below it, then the rest, by the longest chain above each."""
        first, chain = {below for it in wanted[:1] for below in [*it.below, it]}, {}
        for crate in reversed(self.left):
            chain[crate] = crate.lines + max((chain[it] for it in self.left if crate in it.libraries), default=0)
        self.left.sort(key=lambda it: (it not in first, -chain[it]))
        self.first = first

    def start_ready(self):
        """Starts crates of which all below is made, as far as processors are idle."""
        idle = self.processors - sum(it.jobs for it in self.running)
        ready = [it for it in self.left if all(below.name in self.made for below in it.below)][: max(0, idle)]
        for at, crate in enumerate(ready):
            # what the others don't need, rounded up; two for what the first program waits for, though that may be one more than are idle
            is_awaited = crate is self.left[0] and crate in self.first and self.processors >= 4
            jobs = min(4, max(-(-idle // (len(ready) - at)), 2 if is_awaited else 1))
            # what the first program waits for has the processors before the rest
            nice = 0 if is_awaited else 5 if crate in self.first else 10
            idle -= jobs
            self.left.remove(crate)
            self.running.append(Proof(crate, jobs, nice, self.made, self.kept, self.group))

    def end_of(self, proof, status, said, cost):
        """Judges a proof that has ended, and keeps what it made."""
        crate = proof.crate
        self.running.remove(proof)
        self.log.write(f"== {crate.name}: {cost}\n{said}")
        if status == -signal.SIGKILL and self.processors > 1 and not self.failed:
            self.progress.line(f"        {crate.name}: the proof was killed, most likely for want of memory: from here on one runs at a time")
            self.processors = 1
            self.left.insert(0, crate)
        elif status or not crate.is_proved(said):
            self.progress.line(f"        {crate.name:<22s} not proved, after {cost.partition(',')[0]}; what runs is ended and kept")
            self.failed[crate.name], self.left = said, []
        else:
            self.proved += 1
            self.done(crate, self.kept.keep(crate.label, proof.room), f"proved in {cost.partition(',')[0]}")

    def prove(self, wanted):
        """Takes what is kept of these crates and of those below, and proves the rest."""
        self.look(wanted)
        self.order(wanted)
        while self.left or self.running:
            for proof in [*self.running]:
                if end := proof.end():
                    self.end_of(proof, *end)
            self.start_ready()
            going = ", ".join(f"{it.crate.name} {minutes(time.monotonic() - it.began)}" for it in self.running)
            self.progress.tick(f"{len(self.left) + len(self.running)} left; {going}")
            time.sleep(0.1)
        if self.progress.is_terminal:
            self.progress.line("", end="")
        for name, said in self.failed.items():
            self.fail(f"{name} was not proved", said)

    def fail(self, why, said):
        """Ends after a failure, with the end of what was said."""
        print("".join(f"{it}\n" for it in said.splitlines()[-30:]), end="")
        sys.exit(f"\n{why}. All that was printed stands in {os.path.relpath(LOG)}.")

    def run(self, *words):
        """Runs a command, with what it prints in the log, and fails where it does."""
        self.log.flush()
        if self.group.start(words, stdout=self.log).wait():
            self.fail(f"{os.path.basename(words[1])} failed", Path(LOG).read_text(encoding="utf-8"))

    def leave_program(self, crate):
        """Links a program and leaves it in bin/."""
        self.run("bash", f"{TOP}/scripts/link.sh", f"{self.made[crate.name]}/{crate.product}", f"{TOP}/{BIN}/{PROGRAMS[crate.name]}")
        self.progress.line(f"        {BIN}/{PROGRAMS[crate.name]} is there")


def play():
    """Plays the first answer of README.md."""
    words = [*[f"qemu-{TARGET}"] * bool(TARGET), f"{BIN}/rt1553"]
    print(f"    $ printf '{GIVEN}' | {' '.join(words)}", flush=True)
    said = subprocess.run(words, cwd=TOP, input=GIVEN.replace("\\n", "\n"), stdout=subprocess.PIPE, text=True, check=False).stdout
    print(f"    {said}", end="")
    if said != f"{ANSWER}\n":
        sys.exit(f"{BIN}/rt1553 was to answer {ANSWER}")


def left_by(build, words, built):
    """Builds what these words of WANTED ask for, over what `rt ci` proved in the folder, if there is one. Returns what is left of it."""
    if built:
        build.made = {it.name: f"{built}/crates/{it.name}/out/rlib" for it in build.crates.values() if it.is_library}
    build.prove([build.crates[WANTED[it][0]] for it in words])
    top = built or TOP
    for it in words:
        if it in MADE_BY:
            program, script = MADE_BY[it]
            crate = WANTED[it][0]
            build.run(program, f"{TOP}/{script}", f"{build.made[crate]}/lib{crate}.a", f"{top}/{BIN}/{WANTED[it][1]}")
    return " and ".join(f"{BIN}/{WANTED[it][1]}" for it in words)


def build_libraries(build, folder, names):
    """Builds what these crates stand on, and links what was made to the places at which `rt ci` leaves it."""
    wanted = {below for it in names for below in build.crates[it].below}
    build.prove([it for it in build.crates.values() if it in wanted])
    for name, at in build.made.items():
        os.makedirs(f"{folder}/crates/{name}/out")
        os.symlink(at, f"{folder}/crates/{name}/out/rlib")
    return "libraries"


def copy_for_gate(crates, folder):
    """Copies the crates without their edits, each of which `rt ci` would give a check of its own, and without those of unit tests, whose
    proofs tell nothing."""
    lines = Path(TOP, "crates.txt").read_text(encoding="utf-8").splitlines()
    kept = [it for it in lines if not it.startswith(tuple(f"{name}:" for name in UNIT_TESTS))]
    os.makedirs(folder, exist_ok=True)
    shutil.copy(f"{TOP}/HANDLES", folder)
    Path(folder, "crates.txt").write_text("".join(f"{it}\n" for it in kept), encoding="utf-8")
    for it in crates.values():
        if it.name not in UNIT_TESTS:
            leave_out = shutil.ignore_patterns("out", "must-fail", "must-not-compile")
            shutil.copytree(f"{TOP}/crates/{it.name}", f"{folder}/crates/{it.name}", ignore=leave_out)
            it.copy(f"{folder}/crates/{it.name}")


def main():
    began, (word, *more), toolchain = time.monotonic(), sys.argv[1:] or [""], Toolchain()
    if word not in (*WANTED, "again", "libraries", "copy"):
        sys.exit(__doc__)
    if word == "copy":
        return copy_for_gate(crates_for(toolchain), more[0])
    kept = Kept()
    for it in (BIN, "out"):
        os.makedirs(f"{TOP}/{it}", exist_ok=True)
    with open(LOG, "w", encoding="utf-8", buffering=1) as log:
        build = Build(kept, log, toolchain)
        if word == "libraries":
            what = build_libraries(build, more[0], more[1:])
        else:
            there = [it for it in WANTED if it and os.path.exists(f"{TOP}/{BIN}/{WANTED[it][1]}")]
            words = {"tool": ["", "tool"], "again": ["", *there]}.get(word, [word])
            what = left_by(build, words, "".join(more))
    of = f"{build.proved} of {len(build.all)} crates proved now, {len(build.all) - build.proved} before"
    print(f"{what}: {of}, by {toolchain.line}, in {minutes(time.monotonic() - began)}.", flush=True)
    if not word:
        play()


if __name__ == "__main__":
    try:
        main()
    except KeyboardInterrupt:
        sys.exit("\nended; what was proved is kept")
    except OSError as error:
        sys.exit(f"\n{error.strerror}: {error.filename or 'a file'}. What was proved is kept.")
