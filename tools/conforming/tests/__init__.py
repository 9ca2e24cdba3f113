"""The tests of tools/conform. It must pass the program, and find each flaw of wrong_broker.py, which changes what the
program prints. Words that are refused, and case files that are malformed, are tried too.
"""
