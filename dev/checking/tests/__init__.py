"""The tests of dev/check, dev/test and dev/setup themselves."""
