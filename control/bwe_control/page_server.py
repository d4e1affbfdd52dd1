"""Serves the page of a network on the loopback, and keeps it current."""

from __future__ import annotations

import json
import logging
import threading
import time
from dataclasses import dataclass
from http import HTTPStatus
from http.server import BaseHTTPRequestHandler, ThreadingHTTPServer
from urllib.parse import parse_qs, urlsplit

from bwe_control.errors import ControlError, InputError
from bwe_control.metrics import PageMetrics, render
from bwe_control.picture import PictureMaker, empty_page, standing, with_following
from bwe_control.session import Session
from bwe_control.status import StatusReader
from bwe_control.store.interface import Select
from bwe_control.trouble import Trouble
from bwe_control.values import Posted

log = logging.getLogger(__name__)

LOOK_EACH = 1.0  # seconds between two looks where no bell rings
PAUSE = 1.0  # seconds at least between two pages


@dataclass(frozen=True)
class Shown:
    """What is served until the next look."""

    token: str
    page: str
    standing: str
    notice: str


class PageFollower:
    """Follows the store in the calling thread, and keeps what is to be served."""

    def __init__(self, session: Session, metrics: PageMetrics) -> None:
        self._session, self._metrics = session, metrics
        self._posted: Posted | None = None
        page = with_following(empty_page(session.keys.network), "none")
        self._lock, self._shown = threading.Lock(), Shown("none", page, "", "")

    @property
    def shown(self) -> Shown:
        with self._lock:
            return self._shown

    def run(self) -> None:
        """Goes on for ever; where the store is away, the last page stays."""
        store = self._session.open()
        maker = PictureMaker(store, self._session.keys)
        reader = StatusReader(store, self._session.keys)
        bell = store.bell([Select(self._session.keys.posted)])
        trouble = Trouble()
        while True:
            try:
                self._look(maker, reader)
                if trouble.is_over():
                    log.info("the store answers again")
            except ControlError as fault:
                if trouble.is_new(str(fault)):
                    log.warning("%s", fault)
                self._metrics.away.set(1)
                self._keep(notice=f"The last table is shown: {fault}.")
            time.sleep(PAUSE)
            bell.wait(LOOK_EACH)

    def _look(self, maker: PictureMaker, reader: StatusReader) -> None:
        status = reader.read()
        self._metrics.show(status)
        self._keep(standing=standing(status), notice="")
        if status.posted is not None and status.posted != self._posted:
            picture = maker.make()
            if picture is not None:
                self._posted = picture.posted
                token = f"{picture.posted.prefix}-{picture.posted.document}"
                self._keep(token=token, page=with_following(_with_place(picture.text), token))

    def _keep(self, **changed: str) -> None:
        with self._lock:
            self._shown = Shown(**{**self._shown.__dict__, **changed})


def _with_place(text: str) -> str:
    """The page with a place for what is said of the deployment."""
    return text.replace("</h1>", '</h1>\n<p class="muted" id="standing"></p>', 1)


def serve(session: Session, port: int, metrics: PageMetrics) -> None:
    """Serves until it is stopped."""
    follower = PageFollower(session, metrics)

    class Handler(BaseHTTPRequestHandler):
        protocol_version = "HTTP/1.1"
        server_version, sys_version = "bwe-control", ""

        def do_GET(self) -> None:
            path = urlsplit(self.path)
            shown = follower.shown
            if path.path == "/":
                self._answer("text/html; charset=utf-8", shown.page.encode())
            elif path.path == "/table":
                after = parse_qs(path.query).get("after", [""])[0]
                given = dict(shown.__dict__, page=None if after == shown.token else shown.page)
                self._answer("application/json", json.dumps(given).encode())
            elif path.path == "/metrics":
                self._answer("text/plain; version=0.0.4; charset=utf-8", render(metrics.registry))
            else:
                self.send_error(HTTPStatus.NOT_FOUND)

        def _answer(self, kind: str, body: bytes) -> None:
            self.send_response(HTTPStatus.OK)
            self.send_header("Content-Type", kind)
            self.send_header("Content-Length", str(len(body)))
            self.send_header("Cache-Control", "no-store")
            self.send_header("X-Content-Type-Options", "nosniff")
            self.end_headers()
            self.wfile.write(body)

        def log_message(self, format: str, *given: object) -> None:
            log.debug(format, *given)

    try:
        server = ThreadingHTTPServer(("127.0.0.1", port), Handler)
    except OSError as fault:
        raise InputError(f"port {port} cannot be served: {fault.strerror}") from None
    server.daemon_threads = True
    threading.Thread(target=server.serve_forever, name="page", daemon=True).start()
    log.info("the page is at http://127.0.0.1:%d/", server.server_port)
    follower.run()
