"""The tests of dev/refuse_allocations: wrong bodies that the prover lets through, and that no test finds while there is
memory. Each is in bodies/CRATE, in the form of a must-fail edit.
"""
