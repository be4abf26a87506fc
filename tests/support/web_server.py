"""A web server on this machine that records the requests."""
from __future__ import annotations

import contextlib
import functools
import http.server
import threading
from pathlib import Path
from typing import Any, Iterator


class WebServer(http.server.ThreadingHTTPServer):
    """Serves the files of a folder on a free port."""

    def __init__(self, folder: Path) -> None:
        self.requests: list[str] = []
        handler = functools.partial(RecordingHandler, self.requests, directory=str(folder))
        super().__init__(("127.0.0.1", 0), handler)
        self.address = f"http://127.0.0.1:{self.server_port}"


class RecordingHandler(http.server.SimpleHTTPRequestHandler):
    """Answers a request and records it."""

    def __init__(self, requests: list[str], *args: Any, **options: Any) -> None:
        self.requests = requests
        super().__init__(*args, **options)

    def log_request(self, code: int | str = "-", size: int | str = "-") -> None:
        self.requests.append(f"{self.command} {self.path}")


@contextlib.contextmanager
def serving(folder: Path) -> Iterator[WebServer]:
    """Serves a folder while the block runs."""
    with WebServer(folder) as server:
        thread = threading.Thread(target=server.serve_forever, daemon=True)
        thread.start()
        try:
            yield server
        finally:
            server.shutdown()
            thread.join()
