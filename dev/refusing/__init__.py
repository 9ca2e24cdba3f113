"""Tries crates' tests of allocations, for dev/refuse_allocations. `dev/check refuse` runs the tests below tests/."""
