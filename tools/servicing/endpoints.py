"""The page, the metrics, the health and reports of a service, at the paths that docs/OPERATING.md names, and what forms
of the page ask for. Whatever clients send, or leave out, the service goes on: they are answered from the board, and
from histories that are kept, alone. The same is always answered at the socket `status` in the folder, for
`tools/service --status`: to the user of the service, and to root.
"""
import functools
import hmac
import os
import secrets
from http import HTTPStatus
from urllib.parse import parse_qs, quote, unquote

from servicing.folder import Unusable
from servicing.http import OwnerServer, asked, why_not_listening
from servicing.metrics import metrics
from servicing.page import page
from servicing.reports import jobs_named, report_on
from servicing.saying import say
from servicing.texts import MOST_RUNS, text
from servicing.state import ACKNOWLEDGE, CUT, END, Board
from rb_broker_redis.watching.http import Answer, HttpServer, is_loopback

SOCKET = "status"  # in the folder
JOBS = "/jobs"


def serve_pages(board: Board, folder: str, http: tuple[str, int] | None, allows_changes: bool = False) -> None:
    """Shows what is on a board at the socket of a folder, and at an address if there is one. Raises an `Unusable` if
    nothing can listen there."""
    board.token = secrets.token_urlsafe() if allows_changes else ""
    answer, posted = functools.partial(answer_of, board, folder), functools.partial(change, board)
    if http:
        try:
            port = HttpServer(http, answer, posted).server_address[1]
            board.http = f"[{http[0]}]:{port}" if ":" in http[0] else f"{http[0]}:{port}"
        except OSError as fault:
            why = why_not_listening(http[1], fault)
            raise Unusable(f"--http: cannot listen at {http[0]}:{http[1]}: {why}") from None
        if not is_loopback(http[0]):
            say("warning", "pages", text=f"{http[0]} is not a loopback address: whoever can reach it can read what the "
                "page shows, and payloads in reports, without a password or encryption; "
                f"{'the run can be ended' if allows_changes else 'nothing can be changed'} by it")
    path = os.path.join(folder, SOCKET)
    try:
        OwnerServer(path, answer, lambda path, body: change(board, path, body, is_owner=True))
    except OSError as fault:
        say("warning", "pages", text=f"{path}: {fault.strerror}: --status does not work")


def answer_of(board: Board, folder: str, path: str) -> Answer | None:
    """The answer to a path. None if there is nothing."""
    state, status = board.state, HTTPStatus.OK
    if path == "/":
        return Answer(status, "text/html", page(state, board.token))
    if path == "/metrics":
        return Answer(status, "text/plain; version=0.0.4", metrics(state))
    if path == "/health":
        return Answer(status if state.is_healthy else HTTPStatus.SERVICE_UNAVAILABLE, "text/plain", text(state))
    if path == "/favicon.ico":  # for which browsers ask by themselves
        return Answer(HTTPStatus.NO_CONTENT)
    kept = [it for it in state.runs if it.has_history]
    if path.startswith(f"{JOBS}/"):
        return jobs_named(unquote(path[len(JOBS) + 1:]), kept[:MOST_RUNS], folder)
    return next((report_on(it, folder) for it in kept if path == f"/runs/{it.number}"), None)


def change(board: Board, path: str, body: bytes, is_owner: bool = False) -> Answer | None:
    """Leads to jobs; asks for an end, if it is told the token, which only the page tells; and takes what was lost as
    known, from the owner. None if nothing may be asked."""
    what, said = path.removeprefix("/"), parse_qs(body.decode("ascii", "replace"))
    words = {name: values[0] for name, values in said.items()}
    if path == JOBS:
        return Answer(HTTPStatus.SEE_OTHER, text=f"{JOBS}/{quote(words.get('word', '').strip(), safe='')}")
    if is_owner and what == ACKNOWLEDGE:
        board.asked.add(what)
        return Answer(HTTPStatus.NO_CONTENT)
    if not board.token or what not in (END, CUT):
        return None
    if not hmac.compare_digest(words.get("token", "").encode(), board.token.encode()):
        return Answer(HTTPStatus.FORBIDDEN, "text/plain", "this page is old: load it again\n")
    board.asked.add(what)
    return Answer(HTTPStatus.SEE_OTHER, text="/")


def print_status(folder: str) -> int:
    """Prints the status of the service of a folder, which it is asked for at its socket: it costs the server nothing.
    Returns the exit status. Raises an `Unusable` if no service answers."""
    head, told = asked(os.path.join(folder, SOCKET), "GET /health")
    print(told.decode(), end="")
    return 0 if head.startswith(b"HTTP/1.0 200 ") else 1


def acknowledge(folder: str) -> int:
    """Tells the service of a folder that what is lost is known. The same."""
    head, _ = asked(os.path.join(folder, SOCKET), f"POST /{ACKNOWLEDGE}")
    return 0 if head.startswith(b"HTTP/1.0 204 ") else 1
