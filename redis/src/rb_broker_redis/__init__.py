"""rb_broker's line protocol over queues that stand in a Redis."""

__version__ = "1.0.0"
