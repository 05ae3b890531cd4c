#compdef rt1553-tool
# completion of rt1553-tool in zsh, made by scripts/manual.py of manual/arguments.toml
_rt1553_tool() {
    local -a commands
    commands=(
        'check:Prints ok, or the faults of a profile'
        'canon:Prints the canonical text of a profile'
        'compare:Prints same, or a script that two terminals answer differently'
        'run:Prints the transcript of a script'
        'bus:Prints the transcript of a script for a bus of terminals'
        'lint:Prints all faults of profiles, and what has no effect'
        'check-script:Prints which lines of scripts are refused, where and why'
        'verify:Prints where a terminal does not answer as scripts state'
        'answers:Writes a script with the answers of a terminal stated'
        'recording:Writes the recording of a terminal that the table of a monitor has'
        'coverage:Prints which messages of a terminal came in recordings, and which never'
        'infer:Proposes a profile that explains a recording'
        'import:Writes the profile that a table means'
        'export:Writes the table of a profile'
        'expand:Writes messages as the lines of a script'
        'toml:Writes a small profile that means the same terminal'
        'explain:Prints what a terminal does, as a table'
        'differ:Prints all differences between two terminals'
        'acceptance:Writes the test that distinguishes a terminal from every other'
        'messages:Prints a line for each message of a run, and how it ended'
        'draw:Draws a run\: the words on the buses, and what is handed over'
        'words:Converts between words of the bus and their fields'
        'live:Plays lines as they come, and ends each answer with a dot'
    )
    if ((CURRENT == 2)); then
        if [[ $words[2] == -* ]]; then _arguments '--help[lists the commands]' '--version[prints the versions]'; return; fi
        _describe -t commands command commands
        return
    fi
    local command=$words[2]
    shift words
    ((CURRENT--))
    case $command in
        check) _arguments '--help[prints what the command takes]' '1:P:_files -g "*.(toml|rt1553)(-.)"' ;;
        canon) _arguments '--help[prints what the command takes]' '1:P:_files -g "*.(toml|rt1553)(-.)"' ;;
        compare) _arguments '--help[prints what the command takes]' '1:P:_files -g "*.(toml|rt1553)(-.)"' '2:Q:_files -g "*.(toml|rt1553)(-.)"' ;;
        run) _arguments '--help[prints what the command takes]' '1:P:_files -g "*.(toml|rt1553)(-.)"' '2:SCRIPT:_files -g "*.(script)(-.)"' ;;
        bus) _arguments '--help[prints what the command takes]' '--expand[takes messages, too, as `expand` does]' '--alone[prints what comes to the terminal of this address, as a script]:ADDRESS: ' '--messages[prints the messages, as `messages` does, a line for each of their terminals]' '--check[takes messages as --expand does, and prints which of them do not end well]' '--format[with --check\: the output format]:format:(text json junit)' '*--names[with --check\: the names of messages to the terminal of TABLE, also several times]:TABLE:_files -g "*.(csv)(-.)"' '--date[with --check, not as text\: the date and time, as 2026-01-31T12\:00\:00]:DATE: ' '--response[with --check\: the time before a status word, in us; 12 if left out]:TIME: ' '--gap[with --check\: the time between messages, in us; 4 if left out]:TIME: ' '*:P:_files -g "*.(toml|rt1553)(-.)"' '2:SCRIPT:_files -g "*.(script)(-.)"' ;;
        lint) _arguments '--help[prints what the command takes]' '--format[the output format]:format:(text json sarif)' '*:P:_files -g "*.(toml|rt1553)(-.)"' ;;
        check-script) _arguments '--help[prints what the command takes]' '*:SCRIPT:_files -g "*.(script)(-.)"' ;;
        verify) _arguments '--help[prints what the command takes]' '--summary[as text prints what passes, too, clause by clause]' '--bus-only[ignores hand-overs that a script does not state; not with --any-subsystem]' '--any-subsystem[takes scripts as recordings\: some behaviour of the subsystem is to explain them]' '--already-on[with --any-subsystem takes recordings that began while the unit was on]' '--witness[with --any-subsystem prints, as text, a script that explains one recording]' '--expand[takes messages, too, as `expand` does]' '(1)--profiles[in place of P\: each script names its profile in FOLDER]:FOLDER:_files -/' '--format[the output format]:format:(text json junit html)' '--names[puts the names of messages in TABLE beside their numbers]:TABLE:_files -g "*.(csv)(-.)"' '--date[not as text\: the date and time, as 2026-01-31T12\:00\:00, also with Z or an offset]:DATE: ' '(--profiles)1:P:_files -g "*.(toml|rt1553)(-.)"' '*:SCRIPT:_files -g "*.(script)(-.)"' ;;
        answers) _arguments '--help[prints what the command takes]' '--expand[takes messages, too, as `expand` does]' '1:P:_files -g "*.(toml|rt1553)(-.)"' '2:SCRIPT:_files -g "*.(script)(-.)"' ;;
        recording) _arguments '--help[prints what the command takes]' '--address[the address of the terminal, 0 to 30; it has to be given]:N: ' '--gap[a longer silence is a gap, in microseconds (default\: 1)]:TIME: ' '--no-response[a status word after a longer silence is no reply, in microseconds (default\: 12)]:TIME: ' '--pause[a longer silence of both buses is a pause, in microseconds (default\: 100)]:TIME: ' '--after-reset[so long behind a reset a missing reply convicts no unit, in microseconds (default\: 5000)]:TIME: ' '--after-self-test[so long behind the start of a self test, in microseconds (default\: 100000)]:TIME: ' '1:TABLE:_files -g "*.(csv)(-.)"' ;;
        coverage) _arguments '--help[prints what the command takes]' '--expand[takes messages, too, as `expand` does]' '--format[the output format]:format:(text json html)' '--names[puts the names of messages in TABLE beside their numbers]:TABLE:_files -g "*.(csv)(-.)"' '1:P:_files -g "*.(toml|rt1553)(-.)"' '*:SCRIPT:_files -g "*.(script)(-.)"' ;;
        infer) _arguments '--help[prints what the command takes]' '--address[the address of the terminal, 0 to 30; it has to be given]:N: ' '--unseen[what a message is of which nothing showed whether it is legal]:unseen:(illegal legal)' '--expand[takes messages, too, as `expand` does]' '1:SCRIPT:_files -g "*.(script)(-.)"' ;;
        import) _arguments '--help[prints what the command takes]' '--check[prints the differences of P from TABLE, and no profile]' '1:TABLE:_files -g "*.(csv)(-.)"' '2::P:_files -g "*.(toml|rt1553)(-.)"' ;;
        export) _arguments '--help[prints what the command takes]' '1:P:_files -g "*.(toml|rt1553)(-.)"' ;;
        expand) _arguments '--help[prints what the command takes]' '--for[for the terminal of P\: slots in place of its words in a transfer]:P:_files -g "*.(toml|rt1553)(-.)"' '1:MESSAGES:_files -g "*.(messages)(-.)"' ;;
        toml) _arguments '--help[prints what the command takes]' '1:P:_files -g "*.(toml|rt1553)(-.)"' ;;
        explain) _arguments '--help[prints what the command takes]' '--format[the output format]:format:(text json)' '--names[puts the names of messages in TABLE beside their numbers]:TABLE:_files -g "*.(csv)(-.)"' '1:P:_files -g "*.(toml|rt1553)(-.)"' ;;
        differ) _arguments '--help[prints what the command takes]' '--scripts[prints the script that shows each difference, if there is one]' '--format[the output format]:format:(text json)' '--names[puts the names of messages in TABLE beside their numbers]:TABLE:_files -g "*.(csv)(-.)"' '1:P:_files -g "*.(toml|rt1553)(-.)"' '2:Q:_files -g "*.(toml|rt1553)(-.)"' ;;
        acceptance) _arguments '--help[prints what the command takes]' '--against[compares the replies of a unit, a CSV table, with the test]:RESULTS:_files -g "*.(csv)(-.)"' '--any-subsystem[with --against\: some behaviour of the subsystem is to explain the replies]' '--format[the output format; csv\: without --against; junit, html\: with it]:format:(text csv json junit html)' '--names[puts the names of messages in TABLE beside their numbers]:TABLE:_files -g "*.(csv)(-.)"' '--date[with --against, not as text\: the date and time, as 2026-01-31T12\:00\:00Z]:DATE: ' '1:P:_files -g "*.(toml|rt1553)(-.)"' ;;
        messages) _arguments '--help[prints what the command takes]' '--expand[takes messages, too, as `expand` does]' '--rt[only messages of terminal A, 0 to 30, or all for those by broadcast]:A: ' '--subaddress[only messages of subaddress S, 0 to 31]:S: ' '--errors[only messages that the terminal did not do, or did not answer]' '--format[the output format; messages excludes the other options but --expand]:format:(text csv json messages)' '--names[puts the names of messages in TABLE beside their numbers]:TABLE:_files -g "*.(csv)(-.)"' '1:P:_files -g "*.(toml|rt1553)(-.)"' '2:SCRIPT:_files -g "*.(script)(-.)"' ;;
        draw) _arguments '--help[prints what the command takes]' '--expand[takes messages, too, as `expand` does]' '--html[writes an HTML page, with the table of legal commands]' '--names[puts the names of messages in TABLE beside their numbers]:TABLE:_files -g "*.(csv)(-.)"' '1:P:_files -g "*.(toml|rt1553)(-.)"' '2:SCRIPT:_files -g "*.(script)(-.)"' ;;
        words) _arguments '--help[prints what the command takes]' ;;
        live) _arguments '--help[prints what the command takes]' '1:P:_files -g "*.(toml|rt1553)(-.)"' ;;
    esac
}
_rt1553_tool "$@"
