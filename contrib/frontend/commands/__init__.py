"""The commands, each a function from its words to its exit status."""
