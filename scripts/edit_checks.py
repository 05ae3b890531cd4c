"""Tries the must-fail edits of a crate, many of them in one check.

`rt must-fail` checks the crate once for each edit, and most of that time goes into reading the libraries and
proving the same functions again. Here one check has all wrong bodies of a crate, each in a copy of its function:
beside it, with the same contract and proof by hand, by a name of its own. That says of each edit what a check with
it alone would say: the proof of a function rests on its own body and on the contracts of what it calls, and no other
body can be seen from it (but in a cycle of calls, of which there is none here). Only the copies are checked, and what
they call. As a control, what is called must be proved, and so must a copy with the right body of each function that
has a proof by hand.

A method of a trait can't be copied beside itself: one wrong body of each takes the right one's place, and a function
that is refused only since it calls such a method does not count. Other edits are tried one by one, in their places: of
more than one body, of a contract, a type or a constant. Then a function of the files that it changes must be refused
on its own account, or else one of the whole crate.

It is a contract that must refuse an edit, and not a proof by hand that names what the edit took away. So a check
in which answers by hand don't fit their goals is done again without these answers: `search` alone must then find
no proof. Where the wrong body lacks a goal that has such an answer, another that has one must be left open: a goal of the
wrong body alone may be left open though it holds, for want of an answer by hand. Nor may it be the borrow checker, which
doesn't cover all code that the language allows: an edit counts as refused only where goals are left open. A function whose
proof is all by hand has none: that proof must be refused.

An edit of a crate's must-not-compile/ is one that the compiler must refuse before the prover is asked: it begins
with a line `error: NAME`, and the check must tell one error, of that name.
"""

import os
import re
import shutil
import subprocess
import time
from pathlib import Path

from edits import PARTS, TOP, edits_of, files_below, module_of, read

# an error in an answer by hand: the file, and the answer's name; and one for answers that name such an answer: their names
UNFIT = re.compile(r"^(?:\./)?(proofs/\S+/Answers\.antt):\d+:\d+: error: `([^`]+)`: ")
UNREAD = re.compile(r"^(?:\./)?(proofs/\S+/Answers\.antt):\d+:\d+: error: \d+ declarations? that depends? on .* not checked: (.+)$")
# an error in an answer by hand to a goal that the body no longer has
GONE = re.compile(r"^(?:\./)?(proofs/\S+/Answers\.antt):\d+:\d+: error: `([^`]+)`: `\w+\.\2`: module `\S+\.Goals`")
# what is said of a function where goals of its proof are open that `search` did not prove
OPEN = re.compile(r"no proof: expected answers in (?:\./)?(\S+); `search` did not prove ((?:`[^`]+`(?:, )?)+)")


def without_answer(text, name):
    """A file of answers without the answer of this name; None where no answer is left."""
    kept, within = [], False
    for line in text.split("\n"):
        # what closes a bracket belongs to the lines above, and so does what is unfolded under the first line
        if line and not line[0].isspace() and not line.startswith((")", "]", "}", "unfolding ")):
            within = line.startswith((f"pub {name} :", f"{name} "))
        if not within:
            kept.append(line)
    return "\n".join(kept) if any(it.startswith("pub ") for it in kept) else None


class Answer:
    """What the prover said of a crate: all its lines, what it said of each function, and its verdict."""

    def __init__(self, ran):
        self.lines = ran.stdout.rstrip("\n").split("\n")
        self.functions = dict(re.findall(r"^fn (\S+): (.*)$", ran.stdout, re.M))
        self.is_proved = ran.returncode == 0
        # a clause or a definition that can't be read refuses the crate too, and says nothing of any contract
        self.unread = next((it for it in self.lines if re.match(r"(\./)?(src|specs)/\S+: error: ", it)), "")
        self.is_refused = ran.returncode == 1 and self.lines[-1].startswith(("logic=not-proved", "only=")) and not self.unread
        # of each file of answers by hand to goals of which the body has some no longer: the names of all these goals
        self.answered = {}

    def error_in(self, name, files):
        """The first error in these files of a function's proof by hand; or ''."""
        place = "/".join(name.split("::")[1:])
        return next((it for it in self.lines if re.match(rf"(\./)?proofs/{place}/{files}: error: ", it)), "")

    def refusal(self, name):
        """What was said of the function, where `search` leaves goals of its proof open that the right body has too, or its proof
        is all by hand and is refused; or ''."""
        if error := self.error_in(name, r"Proof\.antt:\S+"):
            return f"{name}: {error}"
        said = self.functions.get(name, "")
        if not (it := OPEN.match(said)):
            return ""
        goals = set(re.findall("`([^`]+)`", it[2]))
        return f"{name}: {said}" if goals & self.answered.get(it[1], goals) else ""

    def own_refusal(self, name):
        """What was said of the function, where its own proof is refused for any reason, and not only what it calls; or ''."""
        # the errors in the files of its proof say more; where there is none, it can wait for what it calls
        said, error = self.functions.get(name, ""), self.error_in(name, "[^/]*")
        is_own = said.startswith(("not proved", "no proof: expected")) and (error or "; it calls " not in said)
        return f"{name}: {error or said}" if is_own or OPEN.match(said) else ""

    def unfit_answers(self):
        """The answers by hand that don't fit their goals, and those that rest on them: the file and the name of each."""
        unfit = {(it[1], it[2]) for it in map(UNFIT.match, self.lines) if it}
        return unfit | {(it[1], name) for it in map(UNREAD.match, self.lines) if it for name in it[2].split(", ")}

    def names(self, functions):
        """How the functions are named here, those for which one name alone fits."""
        fitting = {function: [it for it in self.functions if function.is_told_by(it)] for function in functions}
        return {function: names[0] for function, names in fitting.items() if len(names) == 1}

    def refused_beside(self, names):
        """What was said of the functions that are refused on their own account and are none of these."""
        return [said for it in self.functions if it not in names and (said := self.own_refusal(it))]

    def refusals(self):
        """What was said of the functions whose contracts refuse their bodies."""
        return [said for it in self.functions if self.is_refused and (said := self.refusal(it))]


class Crate:
    """A crate, its edits, and a room in which the prover keeps what it checked from one check to the next."""

    def __init__(self, name, built, kit, room, sums):
        self.name, self.deps, self.built, self.kit, self.room, self.sums = name, sums.deps, built, kit, room, sums
        # how many checks there were so far
        self.checks = 0
        self.folder = f"{TOP}/crates/{name}"
        self.edits = edits_of(name)
        # the folders of proofs by hand, by the function of each as a check names it
        walked = ((at.removeprefix(f"{self.folder}/"), files) for at, _, files in os.walk(f"{self.folder}/proofs"))
        proofs = [at for at, files in walked if {"Answers.antt", "Invariants.antt", "Proof.antt"} & set(files)]
        self.proofs = {"::".join([name, *it.split("/")[1:]]): it for it in proofs}

    def size(self):
        """How many bytes the crate has: how long its checks take, roughly."""
        return sum(os.path.getsize(it) for part in PARTS for it in files_below(f"{self.folder}/{part}"))

    def rlibs(self, name):
        """The folder in which a library stands built: one of this repository, or one of the toolchain's."""
        return f"{self.built}/crates/{name}/out/rlib" if name in self.deps else f"{self.kit}/rlibs"

    def words(self, only):
        """The words of a check, as `rt ci` gives them: of these functions and modules and what they call, or with none of
        the whole crate."""
        root = "src/main.rt" if os.path.isfile(f"{self.folder}/src/main.rt") else "src/lib.rt"
        words = [f"{self.kit}/bin/rattle", "check", "--crate-name", self.name, root, "--links", f"{self.name}=", "--jobs", "1"]
        words += ["--antt-project", f"{self.kit}/rattle/logic/antt-project.json", "--logic-built", f"{self.kit}/logic_built"]
        words += ["--incremental", f"{self.room}/kept", "-L", f"dependency={self.kit}/rlibs"]
        for name in self.deps:
            words += ["-L", f"dependency={self.rlibs(name)}"]
        for name in ["std", *self.deps[self.name]]:
            words += ["--extern", f"{name}={self.rlibs(name)}/{name}.rlib"]
        for name in only:
            words += ["--only", name]
        return words

    def checked(self, texts, only=()):
        """What the prover says of the crate, or of some of it, with these texts in place of its own and beside them."""
        self.checks += 1
        place = f"{self.room}/crate"
        shutil.rmtree(place, ignore_errors=True)
        for part in PARTS:
            if os.path.isdir(f"{self.folder}/{part}"):
                shutil.copytree(f"{self.folder}/{part}", f"{place}/{part}")
        for file, text in texts.items():
            if text is None:
                Path(f"{place}/{file}").unlink(missing_ok=True)
                continue
            os.makedirs(os.path.dirname(f"{place}/{file}"), exist_ok=True)
            with open(f"{place}/{file}", "w", encoding="utf-8") as it:
                it.write(text)
        how = {"stdin": subprocess.DEVNULL, "stdout": subprocess.PIPE, "stderr": subprocess.STDOUT, "errors": "replace"}
        return Answer(subprocess.run(self.words(only), cwd=place, check=False, **how))

    def refused_by_contracts(self, given, only=()):
        """What the prover says of the crate, or of some of it, with these texts, once the answers by hand that don't fit
        them are gone."""
        texts, answered = dict(given), {}
        answer = self.checked(texts, only)
        while unfit := {it for it in answer.unfit_answers() if texts.get(it[0], "") is not None}:
            before = dict(texts)
            for file in {it[1] for it in map(GONE.match, answer.lines) if it}:
                answered[file] = set(re.findall(r"^pub (\S+) :", given.get(file) or read(f"{self.folder}/{file}"), re.M))
            for file, name in sorted(unfit):
                # None where the names before took its last answer
                if texts.get(file, "") is not None:
                    texts[file] = without_answer(texts.get(file) or read(f"{self.folder}/{file}"), name)
            if texts == before:
                break
            answer = self.checked(texts, only)
        answer.answered = answered
        return answer

    def proof_of_copy(self, function, name):
        """The files of the proof by hand, if there is one, of a copy of the function by this name."""
        texts = {}
        for told, folder in self.proofs.items():
            if function.is_told_by(told):
                # a proof cites its function's own modules, and one that is all by hand is named for its function
                own, to = folder.split("/", 1)[1].replace("/", "."), f"{os.path.dirname(folder)}/{name}"
                for file in os.listdir(f"{self.folder}/{folder}"):
                    text = read(f"{self.folder}/{folder}/{file}")
                    text = re.sub(rf"\b(proofs|contracts)\.{own}\b", lambda it: f"{it[1]}.{own}"[: -len(function.name)] + name, text)
                    texts[f"{to}/{file}"] = re.sub(rf"\b{function.name}_spec\b", f"{name}_spec", text)
        return texts

    def with_bodies(self, copies, placed):
        """The files with these copies behind their functions, and the copies' proofs by hand; by the name of each copy its
        function and its body. Edits of `placed` have their body in place of that of its function."""
        texts, changes = {}, []
        for name, (function, body) in copies.items():
            copy = function.copy(read(f"{self.folder}/{function.file}"), name, body)
            changes.append((function.file, function.close, function.close, f"\n\n{copy}"))
            texts.update(self.proof_of_copy(function, name))
        changes += [(it.function.file, it.function.start, it.function.end, it.body) for it in placed]
        # the last of a file first, so that the others stay where they are
        for file, start, end, new in sorted(changes, reverse=True):
            text = texts.get(file) or read(f"{self.folder}/{file}")
            texts[file] = text[:start] + new + text[end:]
        return texts

    def tried_together(self, edits):
        """Tries edits of bodies, each in a copy of its function, or one of each function that can't be copied in its place.
        Returns what was said of those that were refused."""
        placed = {it.function: it for it in reversed(edits) if it.function.of_trait}
        copied = {it.function._replace(name=f"{it.function.name}_wrong_{n}"): it for n, it in enumerate(edits) if not it.function.of_trait}
        copies = {it.name: (edit.function, edit.body) for it, edit in copied.items()}
        for function in dict.fromkeys(it.function for it in copied.values() if self.proof_of_copy(it.function, "")):
            text = read(f"{self.folder}/{function.file}")
            copies[f"{function.name}_right_{len(copies)}"] = (function, text[function.start : function.end])
        answer = self.refused_by_contracts(self.with_bodies(copies, placed.values()), [*copies, *(it.path() for it in placed)])
        wrong = {**copied, **placed}
        names = answer.names(wrong)
        others = answer.refused_beside(names.values())
        if others or not answer.is_refused:
            print(f"note: {self.name}: a check of {len(wrong)} edits tells nothing: {[answer.lines[-1], *others][-1]}", flush=True)
            return {}
        return {wrong[it].label: said for it, told in names.items() if (said := answer.refusal(told))}

    def tried_in_place(self, edit):
        """What was said of a function that is refused for this edit, in the functions or files that it changes; or ''."""
        only = [edit.function.path()] if edit.function else [module_of(it) if it.startswith("src/") else "" for it in edit.texts]
        if "" in only:
            return ""
        refused = self.refused_by_contracts(edit.texts, only).refusals()
        return refused[0] if refused else ""

    def tried_alone(self, edit):
        """Whether the prover refuses a function of the crate with the edit alone, and what it said."""
        answer = self.refused_by_contracts(edit.texts)
        if answer.is_proved:
            return False, "NOT REFUSED: the crate is proved with this edit"
        if refused := answer.refusals():
            return True, refused[0]
        return False, f"BAD EDIT: no goal is left open that the right body has: {[answer.unread or answer.lines[-1], *answer.refused_beside(())][-1]}"

    def not_compiled(self, edit):
        """Whether the compiler refuses the crate with the edit, by the error that the edit names and no other."""
        answer = self.checked(edit.texts)
        errors = [it for it in answer.lines if re.match(r"(\./)?src/\S+: error", it)]
        is_it = len(errors) == 1 and f"error[{edit.error}]" in errors[0] and not answer.is_proved and not answer.functions
        return is_it, errors[0] if errors else answer.lines[-1]

    def tried(self):
        """Each edit's label, whether it is refused, and why."""
        kept = {it.label for it in self.edits if self.sums.has(self, it)}
        bodies = [it for it in self.edits if it.function and not it.error and not it.fault and it.label not in kept]
        refused = self.tried_together(bodies) if bodies else {}
        for it in self.edits:
            if it.fault:
                yield it.label, False, f"BAD EDIT: {it.fault}"
            elif it.label in kept:
                yield it.label, True, "kept from an earlier run over the same files"
            elif it.error:
                yield it.label, *self.not_compiled(it)
            elif said := refused.get(it.label) or self.tried_in_place(it):
                yield it.label, True, said
            else:
                yield it.label, *self.tried_alone(it)


def tried(crate):
    """Tries the edits of a crate and prints a line for each. Returns how many were refused, and how many were not."""
    began, refused = time.monotonic(), 0
    for edit, (label, is_refused, why) in zip(crate.edits, crate.tried()):
        if is_refused:
            crate.sums.keep(crate, edit)
        print(f"must-fail {label}: {'refused: ' if is_refused else ''}{why[:240]}", flush=True)
        refused += is_refused
    print(f"note: {crate.name}: {len(crate.edits)} edits in {crate.checks} checks, {time.monotonic() - began:.0f} s", flush=True)
    return refused, len(crate.edits) - refused
