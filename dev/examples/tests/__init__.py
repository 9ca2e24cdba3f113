"""The tests of the worker in Perl, examples/worker.pl."""
