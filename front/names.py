"""How a collection is named: by the path of its file, or as a journal."""

# What stands before the path of a journal. A file with such a name is written with its folder, `./journal:x`.
JOURNAL = "journal:"


def journal_path(word):
    """The path of the journal that a word names; None if it names a file."""
    return word[len(JOURNAL):] if word.startswith(JOURNAL) else None
