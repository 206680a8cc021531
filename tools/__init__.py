"""What stands around the program: the words of bin/anki that are no commands of the program, and what is said after a run."""
