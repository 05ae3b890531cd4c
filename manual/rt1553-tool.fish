# completion of rt1553-tool in fish, made by scripts/manual.py of manual/arguments.toml
complete -c rt1553-tool -f
complete -c rt1553-tool -n __fish_use_subcommand -l help -d 'lists the commands'
complete -c rt1553-tool -n __fish_use_subcommand -l version -d 'prints the versions'
complete -c rt1553-tool -n __fish_use_subcommand -a check -d 'Prints ok, or the faults of a profile'
complete -c rt1553-tool -n '__fish_seen_subcommand_from check' -F
complete -c rt1553-tool -n __fish_use_subcommand -a canon -d 'Prints the canonical text of a profile'
complete -c rt1553-tool -n '__fish_seen_subcommand_from canon' -F
complete -c rt1553-tool -n __fish_use_subcommand -a compare -d 'Prints same, or a script that two terminals answer differently'
complete -c rt1553-tool -n '__fish_seen_subcommand_from compare' -F
complete -c rt1553-tool -n __fish_use_subcommand -a run -d 'Prints the transcript of a script'
complete -c rt1553-tool -n '__fish_seen_subcommand_from run' -F
complete -c rt1553-tool -n __fish_use_subcommand -a bus -d 'Prints the transcript of a script for a bus of terminals'
complete -c rt1553-tool -n '__fish_seen_subcommand_from bus' -l expand -d 'takes messages, too, as `expand` does'
complete -c rt1553-tool -n '__fish_seen_subcommand_from bus' -l alone -x -d 'prints what comes to the terminal of this address, as a script'
complete -c rt1553-tool -n '__fish_seen_subcommand_from bus' -l messages -d 'prints the messages, as `messages` does, a line for each of their terminals'
complete -c rt1553-tool -n '__fish_seen_subcommand_from bus' -l check -d 'takes messages as --expand does, and prints which of them do not end well'
complete -c rt1553-tool -n '__fish_seen_subcommand_from bus' -l format -x -a 'text json junit' -d 'with --check: the output format'
complete -c rt1553-tool -n '__fish_seen_subcommand_from bus' -l names -r -F -d 'with --check: the names of messages to the terminal of TABLE, also several times'
complete -c rt1553-tool -n '__fish_seen_subcommand_from bus' -l date -x -d 'with --check, not as text: the date and time, as 2026-01-31T12:00:00'
complete -c rt1553-tool -n '__fish_seen_subcommand_from bus' -l response -x -d 'with --check: the time before a status word, in us; 12 if left out'
complete -c rt1553-tool -n '__fish_seen_subcommand_from bus' -l gap -x -d 'with --check: the time between messages, in us; 4 if left out'
complete -c rt1553-tool -n '__fish_seen_subcommand_from bus' -F
complete -c rt1553-tool -n __fish_use_subcommand -a lint -d 'Prints all faults of profiles, and what has no effect'
complete -c rt1553-tool -n '__fish_seen_subcommand_from lint' -l format -x -a 'text json sarif' -d 'the output format'
complete -c rt1553-tool -n '__fish_seen_subcommand_from lint' -F
complete -c rt1553-tool -n __fish_use_subcommand -a check-script -d 'Prints which lines of scripts are refused, where and why'
complete -c rt1553-tool -n '__fish_seen_subcommand_from check-script' -F
complete -c rt1553-tool -n __fish_use_subcommand -a verify -d 'Prints where a terminal does not answer as scripts state'
complete -c rt1553-tool -n '__fish_seen_subcommand_from verify' -l summary -d 'as text prints what passes, too, clause by clause'
complete -c rt1553-tool -n '__fish_seen_subcommand_from verify' -l bus-only -d 'ignores hand-overs that a script does not state; not with --any-subsystem'
complete -c rt1553-tool -n '__fish_seen_subcommand_from verify' -l any-subsystem -d 'takes scripts as recordings: some behaviour of the subsystem is to explain them'
complete -c rt1553-tool -n '__fish_seen_subcommand_from verify' -l already-on -d 'with --any-subsystem takes recordings that began while the unit was on'
complete -c rt1553-tool -n '__fish_seen_subcommand_from verify' -l witness -d 'with --any-subsystem prints, as text, a script that explains one recording'
complete -c rt1553-tool -n '__fish_seen_subcommand_from verify' -l expand -d 'takes messages, too, as `expand` does'
complete -c rt1553-tool -n '__fish_seen_subcommand_from verify' -l profiles -x -a '(__fish_complete_directories)' -d 'in place of P: each script names its profile in FOLDER'
complete -c rt1553-tool -n '__fish_seen_subcommand_from verify' -l format -x -a 'text json junit html' -d 'the output format'
complete -c rt1553-tool -n '__fish_seen_subcommand_from verify' -l names -r -F -d 'puts the names of messages in TABLE beside their numbers'
complete -c rt1553-tool -n '__fish_seen_subcommand_from verify' -l date -x -d 'not as text: the date and time, as 2026-01-31T12:00:00, also with Z or an offset'
complete -c rt1553-tool -n '__fish_seen_subcommand_from verify' -F
complete -c rt1553-tool -n __fish_use_subcommand -a answers -d 'Writes a script with the answers of a terminal stated'
complete -c rt1553-tool -n '__fish_seen_subcommand_from answers' -l expand -d 'takes messages, too, as `expand` does'
complete -c rt1553-tool -n '__fish_seen_subcommand_from answers' -F
complete -c rt1553-tool -n __fish_use_subcommand -a recording -d 'Writes the recording of a terminal that the table of a monitor has'
complete -c rt1553-tool -n '__fish_seen_subcommand_from recording' -l address -x -d 'the address of the terminal, 0 to 30; it has to be given'
complete -c rt1553-tool -n '__fish_seen_subcommand_from recording' -l gap -x -d 'a longer silence is a gap, in microseconds (default: 1)'
complete -c rt1553-tool -n '__fish_seen_subcommand_from recording' -l no-response -x -d 'a status word after a longer silence is no reply, in microseconds (default: 12)'
complete -c rt1553-tool -n '__fish_seen_subcommand_from recording' -l pause -x -d 'a longer silence of both buses is a pause, in microseconds (default: 100)'
complete -c rt1553-tool -n '__fish_seen_subcommand_from recording' -l after-reset -x -d 'so long behind a reset a missing reply convicts no unit, in microseconds (default: 5000)'
complete -c rt1553-tool -n '__fish_seen_subcommand_from recording' -l after-self-test -x -d 'so long behind the start of a self test, in microseconds (default: 100000)'
complete -c rt1553-tool -n '__fish_seen_subcommand_from recording' -F
complete -c rt1553-tool -n __fish_use_subcommand -a coverage -d 'Prints which messages of a terminal came in recordings, and which never'
complete -c rt1553-tool -n '__fish_seen_subcommand_from coverage' -l expand -d 'takes messages, too, as `expand` does'
complete -c rt1553-tool -n '__fish_seen_subcommand_from coverage' -l format -x -a 'text json html' -d 'the output format'
complete -c rt1553-tool -n '__fish_seen_subcommand_from coverage' -l names -r -F -d 'puts the names of messages in TABLE beside their numbers'
complete -c rt1553-tool -n '__fish_seen_subcommand_from coverage' -F
complete -c rt1553-tool -n __fish_use_subcommand -a infer -d 'Proposes a profile that explains a recording'
complete -c rt1553-tool -n '__fish_seen_subcommand_from infer' -l address -x -d 'the address of the terminal, 0 to 30; it has to be given'
complete -c rt1553-tool -n '__fish_seen_subcommand_from infer' -l unseen -x -a 'illegal legal' -d 'what a message is of which nothing showed whether it is legal'
complete -c rt1553-tool -n '__fish_seen_subcommand_from infer' -l expand -d 'takes messages, too, as `expand` does'
complete -c rt1553-tool -n '__fish_seen_subcommand_from infer' -F
complete -c rt1553-tool -n __fish_use_subcommand -a import -d 'Writes the profile that a table means'
complete -c rt1553-tool -n '__fish_seen_subcommand_from import' -l check -d 'prints the differences of P from TABLE, and no profile'
complete -c rt1553-tool -n '__fish_seen_subcommand_from import' -F
complete -c rt1553-tool -n __fish_use_subcommand -a export -d 'Writes the table of a profile'
complete -c rt1553-tool -n '__fish_seen_subcommand_from export' -F
complete -c rt1553-tool -n __fish_use_subcommand -a expand -d 'Writes messages as the lines of a script'
complete -c rt1553-tool -n '__fish_seen_subcommand_from expand' -l for -r -F -d 'for the terminal of P: slots in place of its words in a transfer'
complete -c rt1553-tool -n '__fish_seen_subcommand_from expand' -F
complete -c rt1553-tool -n __fish_use_subcommand -a toml -d 'Writes a small profile that means the same terminal'
complete -c rt1553-tool -n '__fish_seen_subcommand_from toml' -F
complete -c rt1553-tool -n __fish_use_subcommand -a explain -d 'Prints what a terminal does, as a table'
complete -c rt1553-tool -n '__fish_seen_subcommand_from explain' -l format -x -a 'text json' -d 'the output format'
complete -c rt1553-tool -n '__fish_seen_subcommand_from explain' -l names -r -F -d 'puts the names of messages in TABLE beside their numbers'
complete -c rt1553-tool -n '__fish_seen_subcommand_from explain' -F
complete -c rt1553-tool -n __fish_use_subcommand -a differ -d 'Prints all differences between two terminals'
complete -c rt1553-tool -n '__fish_seen_subcommand_from differ' -l scripts -d 'prints the script that shows each difference, if there is one'
complete -c rt1553-tool -n '__fish_seen_subcommand_from differ' -l format -x -a 'text json' -d 'the output format'
complete -c rt1553-tool -n '__fish_seen_subcommand_from differ' -l names -r -F -d 'puts the names of messages in TABLE beside their numbers'
complete -c rt1553-tool -n '__fish_seen_subcommand_from differ' -F
complete -c rt1553-tool -n __fish_use_subcommand -a acceptance -d 'Writes the test that distinguishes a terminal from every other'
complete -c rt1553-tool -n '__fish_seen_subcommand_from acceptance' -l against -r -F -d 'compares the replies of a unit, a CSV table, with the test'
complete -c rt1553-tool -n '__fish_seen_subcommand_from acceptance' -l any-subsystem -d 'with --against: some behaviour of the subsystem is to explain the replies'
complete -c rt1553-tool -n '__fish_seen_subcommand_from acceptance' -l format -x -a 'text csv json junit html' -d 'the output format; csv: without --against; junit, html: with it'
complete -c rt1553-tool -n '__fish_seen_subcommand_from acceptance' -l names -r -F -d 'puts the names of messages in TABLE beside their numbers'
complete -c rt1553-tool -n '__fish_seen_subcommand_from acceptance' -l date -x -d 'with --against, not as text: the date and time, as 2026-01-31T12:00:00Z'
complete -c rt1553-tool -n '__fish_seen_subcommand_from acceptance' -F
complete -c rt1553-tool -n __fish_use_subcommand -a messages -d 'Prints a line for each message of a run, and how it ended'
complete -c rt1553-tool -n '__fish_seen_subcommand_from messages' -l expand -d 'takes messages, too, as `expand` does'
complete -c rt1553-tool -n '__fish_seen_subcommand_from messages' -l rt -x -d 'only messages of terminal A, 0 to 30, or all for those by broadcast'
complete -c rt1553-tool -n '__fish_seen_subcommand_from messages' -l subaddress -x -d 'only messages of subaddress S, 0 to 31'
complete -c rt1553-tool -n '__fish_seen_subcommand_from messages' -l errors -d 'only messages that the terminal did not do, or did not answer'
complete -c rt1553-tool -n '__fish_seen_subcommand_from messages' -l format -x -a 'text csv json messages' -d 'the output format; messages excludes the other options but --expand'
complete -c rt1553-tool -n '__fish_seen_subcommand_from messages' -l names -r -F -d 'puts the names of messages in TABLE beside their numbers'
complete -c rt1553-tool -n '__fish_seen_subcommand_from messages' -F
complete -c rt1553-tool -n __fish_use_subcommand -a draw -d 'Draws a run: the words on the buses, and what is handed over'
complete -c rt1553-tool -n '__fish_seen_subcommand_from draw' -l expand -d 'takes messages, too, as `expand` does'
complete -c rt1553-tool -n '__fish_seen_subcommand_from draw' -l html -d 'writes an HTML page, with the table of legal commands'
complete -c rt1553-tool -n '__fish_seen_subcommand_from draw' -l names -r -F -d 'puts the names of messages in TABLE beside their numbers'
complete -c rt1553-tool -n '__fish_seen_subcommand_from draw' -F
complete -c rt1553-tool -n __fish_use_subcommand -a words -d 'Converts between words of the bus and their fields'
complete -c rt1553-tool -n __fish_use_subcommand -a live -d 'Plays lines as they come, and ends each answer with a dot'
complete -c rt1553-tool -n '__fish_seen_subcommand_from live' -F
