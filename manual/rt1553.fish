# completion of rt1553 in fish, made by scripts/manual.py of manual/arguments.toml
complete -c rt1553 -f
complete -c rt1553 -n __fish_use_subcommand -a check -d 'Prints ok, or the first fault of the profile'
complete -c rt1553 -n '__fish_seen_subcommand_from check' -F
complete -c rt1553 -n __fish_use_subcommand -a canon -d 'Prints the canonical text'
complete -c rt1553 -n '__fish_seen_subcommand_from canon' -F
complete -c rt1553 -n __fish_use_subcommand -a run -d 'Plays the script to the terminal of the profile, from power-up, and prints the transcript'
complete -c rt1553 -n '__fish_seen_subcommand_from run' -F
complete -c rt1553 -n __fish_use_subcommand -a compare -d 'Prints same, or a script that the two terminals answer differently'
complete -c rt1553 -n '__fish_seen_subcommand_from compare' -F
