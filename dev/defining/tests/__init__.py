"""The tests of dev/definitions, on crates that they make and on those of this repository."""
