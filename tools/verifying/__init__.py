"""The parts of tools/verify: what a history says, what clients recorded, and whether the two agree."""
