"""The pages, tried: their dialogues are run as they stand, their tables of options are compared with --help, those of
faults with the program's own texts, and numbers with what prints them. `dev/check pages` runs them by pytest.

    reading.py            sections, blocks of code and tables of a page
    test_dialogues.py     dialogues of the protocol, and the commands and texts of histories
    test_options.py       options: which there are, their ranges and defaults
    test_faults.py        what is said of faults, and by which status
    test_words.py         paths, parts, commands, options and names that pages mention
    test_planted.py       faults that are planted in pages, each of which a test finds
"""
