"""The parts of tools/load: clients that offer and take jobs, their counts, and what is printed."""
