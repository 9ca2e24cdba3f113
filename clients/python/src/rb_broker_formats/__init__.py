"""The texts of rb_broker, each read and written once: by its clients, by gateways, and by tools.

    protocol.py, requests.py the limits of requests and replies, their words, and which request a line is
    durations.py, dates.py   durations and dates as people write them
    grammar.py, text.py      the lines of a history, one after the other, each of which must be of its form
    acts.py                  what an event may be, and what it gave
    history.py, reader.py, reported_queue.py  a history in columns, with the queue that it describes
    element.py, queue.py     an element by its words, and the queue that events lead to, as it goes
    files.py                 a file, which may be compressed, and those of runs that follow one another
    faults.py                why a history can't be read

docs/HISTORY.md describes histories. Their columns, in which all must be as a queue does it, are `array`s, so that
1,000,000 events take tens of megabytes and no object each. Who takes the lines alone may read what no queue does.
"""
