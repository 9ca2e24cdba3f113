"""What the tools share.

    words.py         the words of a command line; also those of the tools that the package of the system brings
    program.py       the program that is run: this checkout's, built if it has to be, or another that --program names
    progress.py      how far long work is, on a terminal
    paths.py         where the packages are that tools use
    interrupting.py  what Ctrl-C shows

The tests are below tests/; `dev/check tools` runs them.
"""
