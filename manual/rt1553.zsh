#compdef rt1553
# completion of rt1553 in zsh, made by scripts/manual.py of manual/arguments.toml
_rt1553() {
    local -a commands
    commands=(
        'check:Prints ok, or the first fault of the profile'
        'canon:Prints the canonical text'
        'run:Plays the script to the terminal of the profile, from power-up, and prints the transcript'
        'compare:Prints same, or a script that the two terminals answer differently'
    )
    if ((CURRENT == 2)); then
        _describe -t commands command commands
        return
    fi
    local command=$words[2]
    shift words
    ((CURRENT--))
    case $command in
        check) _arguments '1:P:_files -g "*.(toml|rt1553)(-.)"' ;;
        canon) _arguments '1:P:_files -g "*.(toml|rt1553)(-.)"' ;;
        run) _arguments '1:P:_files -g "*.(toml|rt1553)(-.)"' '2:SCRIPT:_files -g "*.(script)(-.)"' ;;
        compare) _arguments '1:P:_files -g "*.(toml|rt1553)(-.)"' '2:Q:_files -g "*.(toml|rt1553)(-.)"' ;;
    esac
}
_rt1553 "$@"
