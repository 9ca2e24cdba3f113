"""Builds the program's crates side by side, for dev/build."""
