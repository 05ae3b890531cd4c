"""The words of player.c by the package."""

import pathlib
import sys

import rt1553


def lines_of(script):
    """The lines up to the first that is none of a script."""
    for line in script.split(b"\n"):
        if len(line) > 64:
            return
        if line and not line.startswith(b"#"):
            try:
                yield rt1553.packed(rt1553.read_event(line.decode("ascii")))
            except ValueError:
                return


def played(terminal, script):
    """The transcript of those lines that mean events."""
    transcript = ""
    for event in lines_of(script):
        try:
            transcript += "".join(answer.line() + "\n" for _, answer in terminal.play([event]))
        except ValueError:
            break
    return transcript


def run(profile, script):
    try:
        transcript = rt1553.run(profile, script)
    except rt1553.Refused as refused:
        sys.stdout.write(refused.transcript)
        print(refused, file=sys.stderr)
        is_same = refused.kind is not rt1553.FaultKind.SCRIPT or played(rt1553.Terminal(profile), script) == refused.transcript
        return 2 if is_same else 9
    sys.stdout.write(transcript)
    return 0 if played(rt1553.Terminal(profile), script) == transcript else 9


def cuts_of(text):
    """The lines of CUTS: the name of the profile and the script, the name of the state, and the lines before and behind."""
    for line in text.decode().splitlines():
        name, lines = line.split(" ")
        script = pathlib.Path(f"{name}.script").read_bytes().splitlines(keepends=True)
        yield name, pathlib.Path(f"{name}-{lines}.state"), b"".join(script[: int(lines)]), b"".join(script[int(lines) :])


def save(cuts):
    for name, state, before, _ in cuts_of(cuts):
        terminal = rt1553.Terminal(pathlib.Path(f"{name}.toml").read_bytes())
        played(terminal, before)
        state.write_bytes(terminal.save())
    return 0


def resume(cuts):
    for name, state, before, behind in cuts_of(cuts):
        print(name, before.count(b"\n"))
        print(played(rt1553.Terminal.restore(state.read_bytes()), behind), end="")
    return 0


def work(word, first, *second):
    if word == "run":
        return run(first, *second)
    if word in ("save", "resume"):
        return (save if word == "save" else resume)(first)
    if word == "compare":
        script = rt1553.compare(first, *second)
        print(script or "same\n", end="")
        return int(script is not None)
    if word == "canon":
        print(rt1553.canonical(first), end="")
    else:
        rt1553.check(first)
        print("ok")
    return 0


def main(word, *names):
    try:
        return work(word, *(pathlib.Path(name).read_bytes() for name in names))
    except rt1553.Refused as fault:
        print(fault, file=sys.stderr)
        return 2


if __name__ == "__main__":
    sys.exit(main(*sys.argv[1:]))
