"""Calls of etcd by its JSON gateway (etcd 3.4 and later), to whichever of its members answers."""

import base64
import http.client
import json
import socket
import ssl
from dataclasses import dataclass
from typing import Optional
from urllib.parse import urlsplit

# So long one member is waited for, in seconds, and so long at most where a wait grows.
PATIENCE, LONGEST, LOG_IN = 3.0, 60.0, 10.0
USUAL_PORT = 2379
# A member that tells of nothing for so long is asked anew, in seconds.
QUIET = 60.0
# What etcd answers while it has no leader, or is overloaded: another member, or a later moment, may do better.
NOT_NOW = (4, 8, 10, 14)
# What it answers where it knows the user no longer, or not yet.
ANEW = ("invalid auth token", "user name is empty", "revision in header is old")
UNASKED = "authentication is not enabled"
NO_SPACE = "database space exceeded"


class Away(Exception):
    """No member answered. What was asked may have been done, and may still be."""


class Denied(Exception):
    """A member answered that it won't do what was asked."""

    def is_full(self):
        """Whether etcd has no room for what was asked."""
        return NO_SPACE in str(self)


@dataclass
class User:
    """By whom etcd is asked, where its `auth enable` wants one, and what it gave for the password: nothing yet, or that
    it wants none. All connections of one process have it in common, since a password is dear to check."""

    name: str
    password: str
    token: Optional[str] = None


class Waits:
    """A wait that grows from one try to the next that comes to nothing, and is short again after one that does."""

    def __init__(self, first, most):
        self.first, self.most, self.now = first, most, first

    def grow(self):
        """How long to wait, this time."""
        now, self.now = self.now, min(2 * self.now, self.most)
        return now

    def again(self):
        self.now = self.first


def encoded(data):
    return base64.b64encode(data).decode()


def decoded(text):
    return base64.b64decode(text or "")


def behind(prefix):
    """The end of the range of all keys that begin so."""
    return prefix[:-1] + bytes([prefix[-1] + 1])


def whole(prefix):
    """The range of all keys that begin so."""
    return {"key": encoded(prefix), "range_end": encoded(behind(prefix))}


def context(certificate, key, authority):
    """What TLS is made with: who etcd is known by, and the certificate that is shown to it."""
    made = ssl.create_default_context(cafile=authority)
    if certificate:
        made.load_cert_chain(certificate, key or certificate)
    return made


class Told:
    """What a watch tells, one after the other. Another thread may end it."""

    def __init__(self, opened, lines):
        self.opened, self.lines = opened, lines

    def __iter__(self):
        try:
            for line in self.lines:
                said = json.loads(line)
                if "error" in said:
                    return
                yield said.get("result", {})
        except (http.client.HTTPException, ValueError) as fault:
            raise OSError(type(fault).__name__) from None

    def close(self):
        self.opened.close()

    def shut(self):
        """Ends it from another thread, so that whoever reads there reads its end."""
        try:
            self.opened.sock.shutdown(socket.SHUT_RDWR)
        except (OSError, AttributeError):
            pass


class Etcd:
    """The members of one etcd, by one connection at a time. Each thread has its own."""

    def __init__(self, urls, tls=None, user=None):
        self.urls, self.tls, self.at, self.open = [urlsplit(one) for one in urls], tls, 0, None
        self.user = user

    def other(self):
        """The same members, by a connection of its own."""
        made = type(self)([], self.tls, self.user)
        made.urls, made.at = self.urls, self.at
        return made

    def only(self, url):
        """One member alone, by a connection of its own."""
        made = self.other()
        made.urls, made.at = [urlsplit(url)], 0
        return made

    def connection(self, patience=PATIENCE):
        url = self.urls[self.at]
        host, port = url.hostname, url.port or USUAL_PORT
        if url.scheme == "https":
            return http.client.HTTPSConnection(host, port, timeout=patience, context=self.tls)
        return http.client.HTTPConnection(host, port, timeout=patience)

    def is_open(self):
        return self.open is not None

    def close(self):
        if self.open is not None:
            self.open.close()
            self.open = None

    def next(self):
        """Goes on to the next member."""
        self.close()
        self.at = (self.at + 1) % len(self.urls)

    def call(self, path, asked, patience=PATIENCE):
        """The answer of the first member that answers, from the one on that answered last. That one is asked twice,
        since it may have closed the connection meanwhile."""
        why = "none is named"
        for _ in range(len(self.urls) + self.is_open()):
            try:
                return self.known(path, asked, patience)
            except (OSError, http.client.HTTPException, ValueError) as fault:
                why = f"{self.urls[self.at].netloc}: {fault or type(fault).__name__}"
                self.next()
        raise Away(why)

    def known(self, path, asked, patience=PATIENCE):
        """The answer of one member, to whom etcd knows: what it gave for the password may have run out."""
        if self.user is None:
            return self.once(path, asked, patience)
        token = self.log_in()
        try:
            return self.once(path, asked, patience, token)
        except Denied as why:
            if not any(one in str(why) for one in ANEW):
                raise
        if self.user.token == token:
            self.user.token = None
        return self.once(path, asked, patience, self.log_in())

    def log_in(self):
        """What etcd gives for the password."""
        if self.user.token is None:
            try:
                asked = {"name": self.user.name, "password": self.user.password}
                self.user.token = self.once("auth/authenticate", asked, LOG_IN)["token"]
            except Denied as why:
                if UNASKED not in str(why):
                    raise
                self.user.token = ""
        return self.user.token

    def head(self, token):
        """What stands before what is asked."""
        return {"Content-Type": "application/json", **({"Authorization": token} if token else {})}

    def once(self, path, asked, patience=PATIENCE, token=""):
        if self.open is None:
            self.open = self.connection(patience)
        self.open.timeout = patience
        if self.open.sock is not None:
            self.open.sock.settimeout(patience)
        self.open.request("POST", "/v3/" + path, json.dumps(asked), self.head(token))
        response = self.open.getresponse()
        said = json.loads(response.read())
        if response.status == 200 and "error" not in said:
            return said
        told = str(said.get("message") or said.get("error") or response.status)
        if NO_SPACE not in told and (response.status >= 500 or said.get("code") in NOT_NOW):
            raise OSError(told)
        raise Denied(told)

    def stream(self, asked, patience):
        """What the member that answered last tells of a watch, until it ends. Each line is waited for so long as it is
        quiet, but the first one as any answer."""
        opened = self.connection(patience)
        try:
            token = self.log_in() if self.user else ""
            opened.request("POST", "/v3/watch", json.dumps(asked), self.head(token))
            response = opened.getresponse()
        except http.client.HTTPException as fault:
            raise OSError(type(fault).__name__) from None
        if response.status != 200:
            if self.user:
                self.user.token = None
            raise OSError(f"status {response.status}")
        opened.sock.settimeout(QUIET)
        return Told(opened, response)

    def text(self, path):
        """The text that one member has at a path, as its metrics."""
        opened = self.connection()
        try:
            opened.request("GET", path)
            response = opened.getresponse()
            said = response.read()
        except http.client.HTTPException as fault:
            raise OSError(type(fault).__name__) from None
        finally:
            opened.close()
        if response.status != 200:
            raise OSError(f"status {response.status}")
        return said.decode("utf-8", "replace")
