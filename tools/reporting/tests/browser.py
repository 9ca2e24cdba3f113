"""A headless browser, driven over a socket by the protocol of Chromium's developer tools."""
import base64
import contextlib
import itertools
import json
import os
import signal
import socket
import subprocess
from typing import Any

PATIENCE = 180.0  # seconds for each answer, on a machine that does much else

KEYS = {"Enter": 13, "Tab": 9, "End": 35, "Home": 36, "ArrowLeft": 37, "ArrowRight": 39}

# What a page may complain by: an error that no script caught, a line on the console, a log's entry, a dialog.
COMPLAINTS = ("Runtime.exceptionThrown", "Runtime.consoleAPICalled", "Log.entryAdded", "Page.javascriptDialogOpening")


class Browser:
    """A browser with one page, and a folder of its own for everything that it stores."""

    def __init__(self, command: str, room: str) -> None:
        self._socket, theirs = socket.socketpair()
        self._socket.settimeout(PATIENCE)
        words = [command, "--headless", "--no-sandbox", "--disable-gpu", "--disable-dev-shm-usage", "--hide-scrollbars",
                 "--no-first-run", "--remote-debugging-pipe", f"--user-data-dir={room}/profile", "about:blank"]
        # The browser reads descriptor 3 and writes descriptor 4.
        script = f'exec "$@" 3<&{theirs.fileno()} 4>&{theirs.fileno()}'
        with theirs:
            self._process = subprocess.Popen(
                ["bash", "-c", script, "bash", *words], pass_fds=[theirs.fileno()], start_new_session=True,
                env={**os.environ, "HOME": room},
                stdin=subprocess.DEVNULL, stdout=subprocess.DEVNULL, stderr=subprocess.DEVNULL)
        self._numbers, self._rest, self._session = itertools.count(1), b"", ""
        self.complaints: list[dict[str, Any]] = []
        self._is_loaded = False
        try:
            self._attach()
        except BaseException:
            self.end()
            raise

    def _attach(self) -> None:
        targets = self._ask("Target.getTargets")["targetInfos"]
        page = next(target["targetId"] for target in targets if target["type"] == "page")
        self._session = self._ask("Target.attachToTarget", targetId=page, flatten=True)["sessionId"]
        for domain in ("Page", "Runtime", "Log"):
            self._ask(f"{domain}.enable")

    def go(self, url: str) -> None:
        """Opens what is at an address, and waits until it is loaded."""
        self._is_loaded = False
        self._ask("Page.navigate", url=url)
        while not self._is_loaded:
            self._take(self._message())

    def value(self, expression: str) -> Any:
        """What an expression of JavaScript gives in the page, or the promise that it is."""
        answer = self._ask("Runtime.evaluate", expression=expression, returnByValue=True, awaitPromise=True)
        if "exceptionDetails" in answer:
            raise AssertionError(f"{expression}: {answer['exceptionDetails']}")
        return answer["result"].get("value")

    def type(self, words: str) -> None:
        """Types words where the page's cursor is, and then the enter key."""
        self._ask("Input.insertText", text=words)
        self.press("Enter")

    def press(self, key: str) -> None:
        """Presses a key that KEYS names."""
        told: dict[str, Any] = {"key": key, "code": key, "windowsVirtualKeyCode": KEYS[key]}
        if key == "Enter":
            told["text"] = "\r"
        for kind in ("keyDown", "keyUp"):
            self._ask("Input.dispatchKeyEvent", type=kind, **told)

    def point(self, x: float, y: float) -> None:
        """Moves the pointer to a place in the window."""
        self._ask("Input.dispatchMouseEvent", type="mouseMoved", x=x, y=y)

    def resize(self, width: int, height: int) -> None:
        self._ask("Emulation.setDeviceMetricsOverride", width=width, height=height, deviceScaleFactor=1, mobile=False)

    def prefer(self, scheme: str) -> None:
        """Makes the browser prefer the color scheme `light` or `dark`, as its user would."""
        self._ask("Emulation.setEmulatedMedia", features=[{"name": "prefers-color-scheme", "value": scheme}])

    def picture(self, width: int, height: int) -> bytes:
        """The top of the page as a PNG."""
        self.resize(width, height)
        return base64.b64decode(self._ask("Page.captureScreenshot", format="png")["data"])

    def end(self) -> None:
        """Ends the browser and all processes that it started."""
        self._socket.close()
        with contextlib.suppress(subprocess.TimeoutExpired):
            self._process.wait(timeout=5)
        with contextlib.suppress(ProcessLookupError):
            os.killpg(self._process.pid, signal.SIGKILL)
        self._process.wait()

    def _ask(self, method: str, **parameters: Any) -> dict[str, Any]:
        number = next(self._numbers)
        request: dict[str, Any] = {"id": number, "method": method, "params": parameters}
        if self._session:
            request["sessionId"] = self._session
        self._socket.sendall(json.dumps(request).encode() + b"\0")
        while True:
            message = self._message()
            if message.get("id") == number:
                if "error" in message:
                    raise AssertionError(f"{method}: {message['error']}")
                result: dict[str, Any] = message["result"]
                return result
            self._take(message)

    def _take(self, message: dict[str, Any]) -> None:
        """Notes what the page reports by itself."""
        method = message.get("method")
        if method == "Page.loadEventFired":
            self._is_loaded = True
        elif method in COMPLAINTS:
            self.complaints.append(message)

    def _message(self) -> dict[str, Any]:
        while b"\0" not in self._rest:
            some = self._socket.recv(1 << 16)
            if not some:
                raise AssertionError("the browser has gone")
            self._rest += some
        text, _, self._rest = self._rest.partition(b"\0")
        message: dict[str, Any] = json.loads(text)
        return message
