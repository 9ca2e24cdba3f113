"""The tests of tools/common: which program is run, the words of a command line, and how far long work is."""
