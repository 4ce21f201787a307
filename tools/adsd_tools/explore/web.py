"""The server of the page: loopback alone, a secret in the address, and nothing that another page could ask."""

import hmac
import http
import json
import os
import re
import secrets
import socket
import urllib.parse

from adsd_tools.forms import ber
from adsd_tools.report import program
from adsd_tools.rows import store

from .api import Raw
from .explorer import Changed
from .places import Places
from .texts import all_told
from .trying import Wrong
from .views import NotThere

PAGE = os.path.join(os.path.dirname(os.path.abspath(__file__)), "page")
KINDS = {".html": "text/html; charset=utf-8", ".css": "text/css; charset=utf-8",
         ".js": "text/javascript; charset=utf-8", ".svg": "image/svg+xml"}
PLAIN = "text/plain; charset=utf-8"
LOOPBACK = "127.0.0.1"
# So many connections wait for their turn to be taken.
MOST_WAITING = 1024
MOST_BODY, MOST_WORDS = 1_048_576, 20
SECONDS_BODY, SECONDS_SENDING = 30, 60
LENGTH = re.compile("[0-9]{1,7}")
POLICY = ("default-src 'none'; script-src 'self'; style-src 'self'; img-src 'self'; connect-src 'self'; "
          "base-uri 'none'; form-action 'none'; frame-ancestors 'none'; require-trusted-types-for 'script'")
HEADERS = {"Content-Security-Policy": POLICY, "X-Content-Type-Options": "nosniff", "Referrer-Policy": "no-referrer",
           "Cache-Control": "no-store", "Cross-Origin-Opener-Policy": "same-origin", "X-Frame-Options": "DENY",
           "Cross-Origin-Resource-Policy": "same-origin",
           "Permissions-Policy": "camera=(), microphone=(), geolocation=(), payment=(), usb=()"}


class Refused(Exception):
    """A request that isn't looked at, with the status that says so."""


def listening(port):
    """A socket that listens on the loopback address."""
    made = socket.socket()
    try:
        made.setsockopt(socket.SOL_SOCKET, socket.SO_REUSEADDR, 1)
        made.bind((LOOPBACK, port))
        made.listen(MOST_WAITING)
    except BaseException:
        made.close()
        raise
    return made


class Server:
    """Serves one explorer on a loopback address. Who doesn't know the secret is told nothing but that nothing is there."""

    def __init__(self, port, api):
        self.socket, self.api, self.secret = listening(port), api, secrets.token_urlsafe(24)
        self.port, self.front = self.socket.getsockname()[1], f"/{self.secret}/".encode()
        self.hosts = {f"{LOOPBACK}:{self.port}", f"localhost:{self.port}"}
        self.origins = {f"http://{host}" for host in self.hosts}
        self.files = {name: self.read(name) for name in sorted(os.listdir(PAGE))
                      if os.path.splitext(name)[1] in KINDS}
        self.places = Places(self.socket, self)

    def read(self, name):
        with open(os.path.join(PAGE, name), "rb") as opened:
            return opened.read(), KINDS[os.path.splitext(name)[1]]

    def address(self):
        return f"http://{LOOPBACK}:{self.port}/{self.secret}/"

    def run(self):
        """Serves until `stop`."""
        self.places.run()
        self.socket.close()

    def stop(self):
        self.places.stop()

    def tell(self, line):
        self.api.explorer.tell(line)

    # ---- what is refused before anything is read but the head

    def is_strange(self, head):
        """Whether the secret isn't in the address that a request asks for."""
        return not hmac.compare_digest(head.target[: len(self.front)], self.front)

    def refuse(self, head):
        """Refused where a request comes from elsewhere than this page, or is none that is answered here."""
        origin = head.one("origin")
        if head.one("host") not in self.hosts:
            raise Refused(421)
        if "origin" not in head.fields and head.method == "POST" or "origin" in head.fields and origin not in self.origins:
            raise Refused(403)
        if head.one("sec-fetch-site", "none") not in ("same-origin", "none"):
            raise Refused(403)
        if head.method not in ("GET", "HEAD", "POST"):
            raise Refused(501)
        size = head.one("content-length", "" if head.method == "POST" else "0") or ""
        if "transfer-encoding" in head.fields or not LENGTH.fullmatch(size) or int(size) > MOST_BODY:
            raise Refused(413)
        if head.method != "POST" and int(size):
            raise Refused(413)
        kind = head.one("content-type") or ""
        if head.method == "POST" and kind.partition(";")[0].strip() != "application/json":
            raise Refused(415)

    # ---- answers

    def bare(self, status):
        """An answer of a status alone, behind which the connection ends."""
        return self.made(status, b"", PLAIN, False)

    def made(self, status, data, kind, goes_on, file=""):
        """The bytes of an answer."""
        fields = {**HEADERS, "Content-Type": kind, "Content-Length": str(len(data))}
        if file:
            fields["Content-Disposition"] = f'attachment; filename="{file}"'
        if not goes_on:
            fields["Connection"] = "close"
        lines = "".join(f"{name}: {value}\r\n" for name, value in fields.items())
        return f"HTTP/1.1 {status} {http.HTTPStatus(status).phrase}\r\n{lines}\r\n".encode("ascii") + data

    def answer(self, connection, head):
        """Answers a request that has the secret; whether the connection goes on."""
        status, data, kind, file = self.found(connection, head)
        goes_on = status < 400 and head.goes_on
        sent = self.made(status, data, kind, goes_on, file)
        connection.socket.settimeout(SECONDS_SENDING)
        connection.socket.sendall(sent[: -len(data)] if head.method == "HEAD" and data else sent)
        return goes_on

    def found(self, connection, head):
        """The status, the bytes, their kind and the name of their file."""
        try:
            self.refuse(head)
            path, _, query = head.target[len(self.front) :].decode("ascii").partition("?")
            name = path[4:] if path.startswith("api/") else None
            if head.method == "POST":
                if name is None:
                    raise Refused(404)
                return self.asked(name, {}, self.body(connection, head))
            if name is not None:
                return self.asked(name, query, None)
            if (path or "index.html") not in self.files:
                raise Refused(404)
        except Refused as why:
            return why.args[0], b"", PLAIN, ""
        return (200, *self.files[path or "index.html"], "")

    def body(self, connection, head):
        """The body of a request, as bytes; it is read where everything else is good."""
        if head.one("expect", "").lower() == "100-continue":
            connection.socket.settimeout(SECONDS_SENDING)
            connection.socket.sendall(b"HTTP/1.1 100 Continue\r\n\r\n")
        try:
            made = connection.body(int(head.one("content-length")), SECONDS_BODY)
        except TimeoutError:
            made = None
        if made is None:
            raise Refused(408)
        return made

    def asked(self, name, query, data):
        """What is answered to a request of the page."""
        file, kind = "", "application/json"
        try:
            made = self.api.answer(name, words_of(query), None) if data is None else self.api.answer(name, {}, object_of(data))
            if isinstance(made, Raw):
                return 200, made.data, "application/octet-stream", made.name
            status = 200
        except NotThere as why:
            status, made = 404, {"error": str(why)}
        except Wrong as why:
            status, made = 400, {"error": str(why)}
        except Changed as why:
            status, made = 409, {"error": str(why)}
        except (program.Failed, store.Broken, ber.Broken, OSError) as why:
            status, made = 500, {"error": str(why)}
        except Exception as why:  # noqa: BLE001 (a fault of this script: the next request goes on)
            self.tell(f"fault: {name}: {type(why).__name__}: {why}")
            status, made = 500, {"error": "a fault of the explorer"}
        return status, json.dumps(all_told(made), ensure_ascii=True).encode(), kind, file


def words_of(query):
    """The words of a query, each once."""
    try:
        pairs = urllib.parse.parse_qsl(query, keep_blank_values=True, strict_parsing=bool(query), errors="strict",
                                       max_num_fields=MOST_WORDS)
    except ValueError:
        raise Wrong("the query string can't be read") from None
    if len(dict(pairs)) < len(pairs):
        raise Wrong("a parameter is given twice")
    return dict(pairs)


def object_of(data):
    """The object that a body is, as JSON."""
    try:
        made = json.loads(data)
    except (ValueError, RecursionError):
        made = None
    if not isinstance(made, dict):
        raise Wrong("the body isn't a JSON object")
    return made
