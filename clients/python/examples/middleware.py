"""Middleware for tasks: Prometheus's metrics, and OpenTelemetry's spans. Copy what you need.

    app.use(Metrics(), Spans(opentelemetry.trace.get_tracer("reminders")))
    prometheus_client.start_http_server(9100)
"""
import time
from contextvars import ContextVar

from rb_broker_client.tasks import Middleware

_began = ContextVar("began", default=None)
_span = ContextVar("span", default=None)


class Metrics(Middleware):
    """How many attempts of each task ended how, how long they took, and how many run."""

    def __init__(self, registry=None):
        import prometheus_client as prometheus

        words = {"labelnames": ["task"], "registry": registry or prometheus.REGISTRY}
        self._done = prometheus.Counter("tasks_done", "Attempts that returned", **words)
        self._failed = prometheus.Counter("tasks_failed", "Attempts that failed", **words)
        self._running = prometheus.Gauge("tasks_running", "Attempts that run", **words)
        self._seconds = prometheus.Histogram("tasks_seconds", "Seconds of an attempt", **words)

    def before(self, task):
        _began.set(time.monotonic())
        self._running.labels(task.name).inc()

    def after(self, task):
        self._ends(task, self._done)

    def failed(self, task, fault):
        self._ends(task, self._failed)

    def _ends(self, task, counter):
        counter.labels(task.name).inc()
        if _began.get() is not None:  # else its process was ended
            self._running.labels(task.name).dec()
            self._seconds.labels(task.name).observe(time.monotonic() - _began.get())


class Spans(Middleware):
    """A span for each attempt, the current one of what its function does."""

    def __init__(self, tracer):
        self._tracer = tracer

    def before(self, task):
        attributes = {"task.id": task.id, "task.attempt": task.failures + 1}
        _span.set(self._tracer.start_as_current_span(task.name, attributes=attributes))
        _span.get().__enter__()

    def after(self, task):
        _span.get().__exit__(None, None, None)

    def failed(self, task, fault):
        if _span.get() is not None:
            _span.get().__exit__(type(fault), fault, fault.__traceback__)
