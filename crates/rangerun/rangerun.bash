# Completion of rangerun for bash.
complete -W "u8 i32" rangerun
