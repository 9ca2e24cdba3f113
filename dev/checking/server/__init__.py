"""Servers by themselves: with 200 clients, many of which misbehave; attended, or told how to treat their clients; and
with thousands of visits."""
