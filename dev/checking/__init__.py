"""What dev/check is made of, and what it tries that belongs to no other folder.

    parts.py, parts.toml, together.py   the table of all parts, and how they run, one or several
    testing.py, trying.py               what tests share: tools as commands; programs that `rt try` builds
    docs/, pages/                       the pages, against each other and the sources, and by what they describe
    program/, server/                   the program, as a command and as a server
    rows/, java/                        rb_cases' files, which dev/cases runs; the package for Java

The tests of dev/check itself are below tests/; `dev/check dev` runs them.
"""
