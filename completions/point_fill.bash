# Completion of the words of point_fill, for bash: it takes none.

complete -W "" point_fill
