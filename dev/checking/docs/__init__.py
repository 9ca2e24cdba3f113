"""The pages, compared with each other and with the sources. A module for each part says what it takes into account.

    links      each relative link of a page leads to a file, and to a heading if it names one
    clauses    each call, clause and definition that docs/PROVED.md names is in the sources
    quotes     docs/HEADLINE.md quotes src/ and specs/ line by line, and what it quotes rests on nothing that it lacks
    uncited    each lemma and definition is named somewhere
    way        each call on the way of a request in docs/ARCHITECTURE.md is made by the one before, and they are counted
"""
from checking.docs import clauses, links, quotes, uncited, way

# Each has a function `find`, which gives for all that it looks at below a folder what is wrong with it, or nothing.
COMPARED = {"links": links, "clauses": clauses, "quotes": quotes, "uncited": uncited, "way": way}
