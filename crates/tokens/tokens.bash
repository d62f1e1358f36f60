# Completion of tokens for bash.
complete -o default -W "--raw --json --count --table --help --version" tokens
