"""The generators: inputs for each program, good, cut short, damaged, made up and at the edge of every room."""
