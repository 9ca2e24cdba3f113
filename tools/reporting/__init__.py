"""The parts of tools/report: the figures of a history, which tools/histories reads into columns, and how they are shown
on a terminal and on a page.

    depth.py, lateness.py, jobs.py             figures
    findings.py, figures.py                    what looks wrong, and all figures of a history
    dates.py, report_tables.py                 moments as people read them; what the terminal and the page show alike
    svg.py, time_axis.py, plots.py             the plots of the page
    page.py, page.html, page.js                the page, and what it does in a browser
    readings.js                                tells what a plot shows

The tests are below tests/, with a maker of large histories; `dev/check report` runs them.
"""
