"""A decision of its own: what of a recording some behaviour of the subsystem explains, by a terminal of the model whose status keeps the
bits of its flags open until it is sent."""

import rules

SERVICE, BUSY, SUBSYSTEM, TERMINAL = 0x100, 0x8, 0x4, 0x1
# the transmitters that may be shut down where a recording begins later
BEGINNINGS = ((), ("A",), ("B",), ("A", "B"))


class AnySubsystem(rules.Terminal):
    """A terminal whose subsystem may do anything: `open` has the bits of the kept status that its flags decide and nothing has shown."""

    def reset(self):
        super().reset()
        self.open = 0

    def start(self, bus, command):
        if not self.spares_kept(command):
            self.open = 0
        super().start(bus, command)

    def formed(self, command, error=False, accept=False):
        self.open = SERVICE | BUSY | SUBSYSTEM | (0 if self.inhibited else TERMINAL)
        return super().formed(command, error, accept)

    def can_send(self, sent):
        """Whether it can send this word in a slot, or None; if so, it goes on."""
        if not self.reply or not sent:
            return not self.reply and not sent
        kind, bus, bits = sent
        word = self.reply.words[0]
        if bus != self.reply.bus or kind != ("status" if word == "status" else "data"):
            return False
        if word == "status":
            if (bits ^ self.kept) & ~self.open:
                return False
            # a busy terminal sends no words of its subsystem
            if bits & BUSY and self.open & BUSY and self.reply.words[1:] not in (["last command"], ["bit"]):
                del self.reply.words[1:]
            self.kept, self.open = bits, 0
        elif word == "last command" and bits not in (None, self.last):
            return False
        self.slot()
        return True

    def takes(self, event, sent):
        """Whether it can send this in an event; if so, it goes on."""
        if event == ("slot",):
            return self.can_send(sent)
        self.step(event)
        return sent is None


def explained(setup, recording, shut_down=()):
    """How many sightings some behaviour of the subsystem explains, where these transmitters are shut down before."""
    terminal = AnySubsystem(setup)
    terminal.shut_down = set(shut_down)
    return next((n for n, (event, sent) in enumerate(recording) if not terminal.takes(event, sent)), len(recording))


def explained_later(setup, recording):
    """How many are explained whatever came before them."""
    return max(explained(setup, recording, it) for it in BEGINNINGS)


def fresh_part(setup, recording):
    """How many sightings come before the first part that begins afresh after a pause; None where no part does."""
    terminal, gaps = rules.Terminal(setup), {"A": 0, "B": 0}
    for n, (event, sent) in enumerate(recording, 1):
        if event[0] == "gap":
            gaps[event[1]] += 1
            continue
        if event == ("slot",) and not sent and min(gaps.values()) >= 2:
            commands = (it[2][1] for it, _ in recording[n:] if it[0] == "word" and terminal.is_for_it(it[2]))
            if not any(terminal.spares_kept(it) for it in list(commands)[:1]):
                return n
            gaps = {"A": 0, "B": 0}
        elif event != ("slot",) or sent:
            gaps = {"A": 0, "B": 0}
    return None
