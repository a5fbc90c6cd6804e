# Completion of the words of outline_check, for bash: it takes none.

complete -W "" outline_check
