"""The tests of tools/package: the package is made, installed below a root, used from there, and removed."""
