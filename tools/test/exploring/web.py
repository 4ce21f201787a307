"""What the server lets in: the secret, Host and Origin, methods, bodies; what stands in its answers; and writing."""

import http.client
import json
import os
import re
import socket
import subprocess
import sys
import unicodedata
from urllib.parse import urlencode, urlsplit

from adsd_tools.report.state import State

from . import corp

COMMAND = os.path.join(corp.TOP, "tools", "adsd-explore")
WANTED = {"Content-Security-Policy": "default-src 'none'; script-src 'self'; style-src 'self';", "X-Content-Type-Options": "nosniff",
          "Referrer-Policy": "no-referrer", "Cache-Control": "no-store", "X-Frame-Options": "DENY",
          "Cross-Origin-Resource-Policy": "same-origin"}
SECONDS = 300
OUTSIDE = re.compile(r"https?://(?!www\.w3\.org/2000/svg)|innerHTML|outerHTML|insertAdjacentHTML|document\.write|"
                     r"\beval\b|new Function|style=|<script>")


class Served:
    """An explorer as its command runs it."""

    def __init__(self, store, *words, command=None, env=None):
        self.child = subprocess.Popen(command or [COMMAND, store, *words], stdout=subprocess.PIPE, stderr=subprocess.PIPE,
                                      text=True, env=env)
        self.address = self.told()
        parts = urlsplit(self.address)
        self.host, self.port, self.path = parts.hostname, parts.port, parts.path

    def told(self):
        """The address, once it is told."""
        return self.child.stdout.readline().strip()

    def ask(self, path, method="GET", body=None, headers=None, host=None):
        """The status, the headers and the body of an answer."""
        connection = http.client.HTTPConnection(self.host, self.port, timeout=SECONDS)
        try:
            connection.putrequest(method, path, skip_host=True)
            for name, value in {"Host": host or f"{self.host}:{self.port}", **(headers or {})}.items():
                if value is not None:
                    connection.putheader(name, value)
            if body is not None and "Content-Length" not in (headers or {}):
                connection.putheader("Content-Length", str(len(body)))
            connection.endheaders(body)
            answer = connection.getresponse()
            return answer.status, dict(answer.getheaders()), answer.read()
        finally:
            connection.close()

    def get(self, what, **words):
        status, _, data = self.ask(f"{self.path}api/{what}?{urlencode(words)}")
        return status, json.loads(data)

    def post(self, what, body):
        headers = {"Content-Type": "application/json", "Origin": f"http://{self.host}:{self.port}"}
        status, _, data = self.ask(f"{self.path}api/{what}", "POST", json.dumps(body).encode(), headers)
        return status, json.loads(data or b"{}")

    def end(self):
        """Ends it; its status and what it said."""
        self.child.terminate()
        return self.ended()

    def ended(self):
        """Its status and what it said, once it has ended; None and why, where it doesn't end."""
        try:
            _, said = self.child.communicate(timeout=SECONDS)
        except subprocess.TimeoutExpired:
            self.child.kill()
            self.child.communicate()
            return None, f"it didn't end in {SECONDS} seconds"
        return self.child.returncode, said


def lets_in(tries, served):
    """Who doesn't know the secret, or comes from another page, is told nothing."""
    start, own = f"{served.path}api/start", f"{served.host}:{served.port}"
    tries.check(re.fullmatch(r"http://127\.0\.0\.1:\d+/[\w-]{32}/", served.address), f"the address: {served.address}")
    wrong = served.path[:-2] + ("A" if served.path[-2] != "A" else "B") + "/"
    cases = [("/", {}, 404), ("/api/start", {}, 404), (wrong, {}, 404), (wrong + "api/start", {}, 404),
             (served.path.rstrip("/"), {}, 404), (served.path + "../" + served.path, {}, 404), (served.path, {}, 200),
             (start, {}, 200), (start, {"host": "evil.example"}, 421), (start, {"host": f"evil.example:{served.port}"}, 421),
             (start, {"host": f"localhost:{served.port}"}, 200), (start, {"host": "127.0.0.1"}, 421),
             (start, {"headers": {"Origin": f"http://{own}"}}, 200), (start, {"headers": {"Origin": "http://evil.example"}}, 403),
             (start, {"headers": {"Origin": "null"}}, 403), (start, {"headers": {"Sec-Fetch-Site": "cross-site"}}, 403),
             (start, {"headers": {"Sec-Fetch-Site": "same-site"}}, 403), (start, {"headers": {"Sec-Fetch-Site": "none"}}, 200),
             (start, {"method": "HEAD"}, 200), (start, {"method": "PUT"}, 501), (start, {"method": "OPTIONS"}, 501),
             (served.path + "../web.py", {}, 404), (served.path + "%2e%2e/web.py", {}, 404), (served.path + "api/nothing", {}, 404),
             (served.path + "api/object?n=99999", {}, 404), (served.path + "api/object?n=-1", {}, 400),
             (served.path + "api/principal?sid=nobody", {}, 400), (served.path + "api/children?n=1&after=" + "9" * 400, {}, 400)]
    for path, words, status in cases:
        found, _, body = served.ask(path, **words)
        tries.check(found == status, f"{path} {words}: {found}, expected {status}")
        tries.check(status == 200 or path.startswith(served.path + "api") and found in (400, 404) or not body, f"{path}: {body[:80]}")
    for name in ("", "main.js", "style.css", "api/start"):
        _, headers, _ = served.ask(served.path + name)
        missing = [key for key, value in WANTED.items() if not headers.get(key, "").startswith(value)]
        tries.check(not missing, f"{name}: headers {missing}")
    raw = socket.create_connection((served.host, served.port), 10)
    raw.sendall(f"GET {start} HTTP/1.1\r\nHost: {own}\r\nHost: evil.example\r\n\r\n".encode())
    tries.check(b" 421 " in raw.recv(4096), "two hosts")
    raw.close()


def bodies(tries, served):
    """A request that changes something comes from the page alone, and is JSON that isn't too long."""
    path, origin = f"{served.path}api/try", {"Origin": f"http://{served.host}:{served.port}"}
    kind, body = {"Content-Type": "application/json"}, json.dumps({"changes": []}).encode()
    cases = [({**origin, **kind}, body, 200), (kind, body, 403), ({**kind, "Origin": "http://evil.example"}, body, 403),
             ({**origin, "Content-Type": "text/plain"}, body, 415), (origin, body, 415),
             ({**origin, **kind, "Content-Length": "99999999"}, b"", 413), ({**origin, **kind}, b"[]", 400),
             ({**origin, **kind}, b"{", 400), ({**origin, **kind}, b"[" * 100_000, 400),
             ({**origin, **kind}, b'{"changes": [{"op": "add", "n": 1, "ace": 1}]}', 400),
             ({**origin, **kind}, b'{"changes": "all"}', 400), ({**origin, **kind}, b'{"changes": [], "by": 7}', 400),
             ({**origin, **kind, "Transfer-Encoding": "chunked", "Content-Length": None}, b"0\r\n\r\n", 413)]
    for headers, data, status in cases:
        found, _, said = served.ask(path, "POST", data, headers)
        tries.check(found == status, f"{headers} {data[:40]}: {found} {said[:80]}, expected {status}")
    found, _, _ = served.ask(f"{served.path}api/start", "POST", body, {**origin, **kind})
    tries.check(found == 404, f"what is read, as a POST: {found}")
    found, _, _ = served.ask(f"{served.path}api/write?plan=x")
    tries.check(found == 404, f"what is written, as a GET: {found}")


def page(tries):
    """The page has no script or style of another place or in the markup, and makes no markup of texts."""
    folder = os.path.join(corp.TOP, "tools", "adsd_tools", "explore", "page")
    for name in sorted(os.listdir(folder)):
        with open(os.path.join(folder, name), encoding="utf-8") as opened:
            found = OUTSIDE.findall(opened.read())
        tries.check(not found, f"{name}: {found}")


def texts(value):
    if isinstance(value, dict):
        for one in value.values():
            yield from texts(one)
    elif isinstance(value, list):
        for one in value:
            yield from texts(one)
    elif isinstance(value, str):
        yield value


def hostile(tries):
    """Names that are markup, controls or marks of direction are told as letters, and long ones whole."""
    served = Served(tries.path("odd"))
    try:
        _, told = served.get("find", q="odd")
        number = told["found"][0]["n"]
        _, below = served.get("children", n=number)
        tries.check(len(below["below"]) == len(corp.HOSTILE), f"hostile names: {len(below['below'])}")
        answers = [below]
        for one in below["below"]:
            for what, words in (("object", {"n": one["n"]}), ("who", {"n": one["n"], "kind": "object", "name": "", "code": "WD"})):
                status, told = served.get(what, **words)
                answers.append(told)
                tries.check(status == 200, f"{what} of {one['name'][:40]}: {status}")
        status, told = served.post("try", {"changes": [{"op": "add", "n": one["n"], "ace": "(A;;WD;;;AU)"} for one in below["below"]]})
        answers.append({key: value for key, value in told.items() if key not in ("lines", "grants")})
        tries.check(status == 200 and all(one["ok"] for one in told["told"]), f"changes at hostile names: {told.get('told')}")
        said = subprocess.run([os.path.join(corp.TOP, "tools", "adsd-ask"), "frames"], input="\n".join(told["lines"]).encode(),
                              capture_output=True)
        _, _, frames = served.ask(f"{served.path}api/frames?plan={told['plan']}&form=bytes")
        tries.check(said.returncode == 0 and plain(frames, told) == plain(said.stdout, told), f"lines of hostile names: {said.stderr}")
        bad = sorted({hex(ord(one)) for text in texts(answers) for one in text if unicodedata.category(one) in ("Cc", "Cf", "Zl", "Zp")})
        tries.check(not bad, f"characters that aren't seen are told as they are: {bad}")
        tries.check(any("\u00e9" * 512 in text for text in texts(answers)), "a long name isn't whole")
    finally:
        tries.check(served.end() == (0, ""), "the explorer of hostile names didn't end well")


def plain(frames, told):
    """How many frames there are and of which kinds: names may be spelled otherwise."""
    made, at = [], 0
    while at < len(frames):
        size = int.from_bytes(frames[at + 3 : at + 7], "big")
        made.append(frames[at])
        at += 7 + size
    return made, len(told["lines"])


def writes(tries):
    """The store is written with --write alone, by the button's request, and then as the what-if said."""
    corp.load(tries.path("written"))
    change = {"changes": [{"op": "add", "n": 5, "ace": f"(A;CI;WD;;;{corp.HELPDESK})"}]}
    served = Served(tries.path("written"))
    try:
        _, told = served.post("try", change)
        before = State(tries.path("written")).objects
        found = served.post("write", {"plan": told["plan"], "settle": True})
        tries.check(found == (400, {"error": "the explorer was started without --write"}), f"without --write: {found}")
        now = State(tries.path("written")).objects
        tries.check({n: one.normal for n, one in now.items()} == {n: one.normal for n, one in before.items()}, "it was written")
    finally:
        served.end()
    served = Served(tries.path("written"), "--write")
    try:
        status, told = served.post("try", change)
        _, last = served.get("moment", plan=told["plan"], step=-1)
        status, done = served.post("write", {"plan": told["plan"], "settle": True})
        tries.check((status, done) == (200, {"status": 0, "pending": 0}), f"with --write: {status} {done}")
        now = State(tries.path("written"))
        changed = [n for n, one in now.objects.items() if one.normal != before[n].normal]
        tries.check(len(changed) == last["changed"] and not now.queue and not now.stale, f"{len(changed)} objects written, {last}")
        tries.check(served.get("object", n=5)[1]["entries"][4]["who"]["name"] == "helpdesk", "the page doesn't show what was written")
        tries.check(served.post("write", {"plan": told["plan"], "settle": True})[0] == 404, "an old what-if can be written")
        _, told = served.post("try", {"changes": [{"op": "revoke", "n": 5, "sid": corp.HELPDESK}]})
        subprocess.run([os.environ["ADSD"], "serve", tries.path("written")], input=bytes.fromhex("04000000000000"),
                       stdout=subprocess.DEVNULL)
        status, said = served.post("write", {"plan": told["plan"], "settle": False})
        tries.check(status == 409 and "another program has written" in said["error"], f"a store that another wrote: {status} {said}")
    finally:
        status, said = served.end()
    tries.check(status == 0 and "1 changes written" in said, f"the end: {status} {said}")


def words(tries):
    """Statuses and what is said."""
    junk = tries.path("junk")
    with open(junk, "wb") as opened:
        opened.write(b"\0" * 20)
    taken = socket.socket()
    taken.bind(("127.0.0.1", 0))
    taken.listen()
    for given, status, said in (([tries.path("missing")], 1, "there is no such file"), ([junk], 1, "store empty"), ([], 2, "required"),
                                ([tries.path("corp"), "--port", "x"], 2, "isn't a port"),
                                ([tries.path("corp"), "--port", str(taken.getsockname()[1])], 5, "Address already in use")):
        done = subprocess.run([COMMAND, *given], capture_output=True, text=True, timeout=SECONDS)
        tries.check(done.returncode == status and said in done.stderr and not done.stdout, f"{given}: {done}")
    taken.close()
    done = subprocess.run([sys.executable, COMMAND, "--help"], capture_output=True, text=True)
    tries.check(done.returncode == 0 and "not proved" in done.stdout, "--help")


def run(tries):
    """All of it."""
    served = Served(tries.path("corp"))
    try:
        lets_in(tries, served)
        bodies(tries, served)
    finally:
        tries.check(served.end() == (0, ""), "the explorer didn't end well")
    page(tries)
    hostile(tries)
    writes(tries)
    words(tries)
