"""The commands, each in a file of its own: `add` gives its words to the command line, `run` does it."""
