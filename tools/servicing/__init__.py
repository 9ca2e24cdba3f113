"""The parts of tools/service, the process that keeps a server running at one port.

    service.py       one server after the other, each of which begins with what the one before left
    current.py, between.py, parts.py         the run that goes on; what is done between two; what these share
    settings.py      the words of the command line
    folder.py, runs.py                       the folder of a service: what is written of a run, and in what order
    clock.py, opening.py                     what a run begins with: its moment, its ids and its elements
    deciding.py      how a service begins, when a run ends, which old ones are dropped, and whether all fits together
    memory.py        what outlives a service that is killed
    server.py        a server: how it is started, told to end, and what it leaves
    looking.py, connections.py, session.py   what is seen of a server
    saying.py        how others ask for the end, and what they are told
    publisher.py     what the service shows of itself, as it goes
    state.py         all that the service knows and shows at one moment; `Board` holds the latest
    metrics.py       the numbers of a state, also as Prometheus reads them
    texts.py         a state as texts, for the page, --status and systemd
    page.py          the page, with charts
    endpoints.py, http.py, reports.py        what is answered: always at the socket FOLDER/status, and at an address if --http
                     names one; and what it tells of the histories of ended runs
"""
