"""What shows people and Prometheus how something goes: a server of pages, their layout and the text of metrics, and how
numbers are told. tools/ has its pages of this folder too, so it imports nothing of this package.

    units.py, tables.py                      numbers as people read them, and tables of them
    head.py, style.css                       what a page begins with, and how it looks
    page.py, page.css, page.js               a page that goes on by itself
    metrics.py                               numbers as Prometheus reads them
    http.py                                  a server that answers to clients that may be slow, wrong or hostile
"""
