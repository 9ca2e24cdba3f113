"""What tools/conform is made of: the reading of case files, the runs of a program, and what differs from a case."""
