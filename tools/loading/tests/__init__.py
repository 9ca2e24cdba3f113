"""The tests of tools/load. Servers are put under load for a second or two, and the tool's counts are compared with
their audit. Some have too few workers, too few calls or no turns; some are not brokers; on one port nothing listens.
"""
