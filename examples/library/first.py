"""A terminal receives two words, and one of its own words is written while it is transmitted."""

from rt1553 import Bus, Sync, Terminal

terminal = Terminal("""
address = 5
[[rule]]
direction = "both"
subaddresses = 3
counts = 2
""")

# a receive command with its two data words; the gap ends the message, and what was received is handed over
terminal.word(Bus.A, Sync.COMMAND, 0x2862)
terminal.word(Bus.A, Sync.DATA, 0x0011)
terminal.word(Bus.A, Sync.DATA, 0x0022)
print(terminal.gap(Bus.A))

# the reply takes time: each slot sends a word, till there are no more
while answer := terminal.slot():
    print(answer.line())

# a transmit command; the subsystem writes word 2 while the reply is in progress
terminal.word(Bus.A, Sync.COMMAND, 0x2C62)
terminal.gap(Bus.A)
if answer := terminal.slot():
    print(answer.line())
terminal.write(3, 2, 0x00BB)
while answer := terminal.slot():
    print(answer.line())
