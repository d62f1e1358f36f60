# Completion of rangecalc for bash.
complete -W "u8 i32" rangecalc
