"""A client of tools/test/ldap-gssapi: binds by GSSAPI and GSS-SPNEGO, step by step, with layers of its own, so that each
step and each frame may be another one than it should be. It needs python3-gssapi."""

import contextlib
import os

import gssapi.raw as raw
from ldap_client import Client, Closed, ber
from adsd_tools.ask import answers

KERBEROS, NEGOTIATED = (raw.OID.from_int_seq(one) for one in ("1.2.840.113554.1.2.2", "1.3.6.1.5.5.2"))
# By this option of credentials the flags of confidentiality and integrity are the client's to choose.
NO_FLAGS = raw.OID.from_int_seq("1.2.752.43.13.29")
FLAGS = raw.RequirementFlag
USUAL = (FLAGS.mutual_authentication, FLAGS.replay_detection, FLAGS.out_of_sequence_detection)
NONE, INTEGRITY, CONFIDENTIALITY = 1, 2, 4
BY_LAYER = {NONE: (), INTEGRITY: (FLAGS.integrity,), CONFIDENTIALITY: (FLAGS.integrity, FLAGS.confidentiality)}
SUCCESS, PROGRESS, INVALID = 0, 14, 49
MOST = 65_536


@contextlib.contextmanager
def settings(told):
    """Some settings of the environment, for a while: the library reads them at each call."""
    before = {name: os.environ.get(name) for name in told}
    os.environ.update(told)
    try:
        yield
    finally:
        for name, value in before.items():
            if value is None:
                del os.environ[name]
            else:
                os.environ[name] = value


class Start:
    """A client's side of a security context, with the ticket of some settings."""

    def __init__(self, told, service="ldap@localhost", mech=KERBEROS, flags=USUAL):
        with settings(told):
            self.name = raw.import_name(service.encode(), raw.NameType.hostbased_service)
            self.credentials = raw.acquire_cred(None, None, [mech], "initiate").creds
            raw.set_cred_option(NO_FLAGS, self.credentials, b"")
        self.told, self.mech, self.flags, self.held, self.complete = told, mech, flags, None, False

    def step(self, token=None):
        with settings(self.told):
            made = raw.init_sec_context(self.name, self.credentials, self.held, self.mech,
                                        raw.IntEnumFlagSet(FLAGS, self.flags), input_token=token)
        self.held, self.complete = made.context, not made.more_steps
        return made.token or b""


class SaslClient(Client):
    """One client. Once a layer is in force, what it sends is wrapped, and what it takes unwrapped."""

    def __init__(self, port):
        super().__init__(port)
        self.context, self.layer, self.held = None, NONE, b""
        inner = self.socket
        self.socket, self.inner = self, inner

    # What Client does with its socket.
    def sendall(self, data):
        self.inner.sendall(self.wrapped(data))

    def wrapped(self, data):
        if self.layer == NONE:
            return data
        made = b""
        for at in range(0, len(data), 32_768):
            one = raw.wrap(self.context, data[at : at + 32_768], self.layer == CONFIDENTIALITY).message
            made += len(one).to_bytes(4, "big") + one
        return made

    def recv(self, count):
        return self.inner.recv(count)

    def setsockopt(self, *given):
        self.inner.setsockopt(*given)

    def shut(self):
        self.inner.close()

    def close(self):
        self.inner.close()

    def taken(self, count):
        if self.layer == NONE:
            return super().taken(count)
        while len(self.held) < count:
            size = int.from_bytes(super().taken(4), "big")
            made = raw.unwrap(self.context, super().taken(size))
            assert made.encrypted == (self.layer == CONFIDENTIALITY)
            self.held += made.message
        made, self.held = self.held[:count], self.held[count:]
        return made

    def bind_step(self, mechanism, token):
        """The code of a step, and what the server says."""
        held = [ber.octets(mechanism), *([] if token is None else [ber.octets(token)])]
        sasl = ber.octets(b"".join(held), 0xA3)
        number = self.send(ber.sequence(ber.number(3), ber.octets(b""), sasl, tag=0x60))
        data, given, tag = self.message()
        if (given, tag) != (number, 0x61):
            raise AssertionError(f"no answer to a bind: {answers.message_lines(data)}")
        fields = ber.parts(ber.parts(ber.parts(data)[0][1])[1][1])
        self.text = bytes(fields[2][1]).decode()
        return int.from_bytes(fields[0][1], "big"), bytes(dict(fields[3:]).get(0x87, b""))

    def by_gssapi(self, told, layer=NONE, identity=b"", most=MOST, choice=None, flags=USUAL, service="ldap@localhost"):
        """The code of a bind by GSSAPI."""
        flags = (*flags, *BY_LAYER[layer])
        start = Start(told, service, KERBEROS, flags)
        code, token = self.bind_step(b"GSSAPI", start.step())
        while code == PROGRESS and not start.complete:
            token = start.step(token)
            code, token = self.bind_step(b"GSSAPI", token) if start.complete else (code, token)
        if code != PROGRESS:
            return code
        offer = raw.unwrap(start.held, token).message
        self.offered, size = offer[0], most if layer != NONE else 0
        chosen = bytes([layer]) + size.to_bytes(3, "big") + identity if choice is None else choice
        code, _ = self.bind_step(b"GSSAPI", raw.wrap(start.held, chosen, False).message)
        if code == SUCCESS:
            self.context, self.layer = start.held, layer
        return code

    def by_gssapi_again(self, told):
        """The code of a bind by GSSAPI within a layer, which stays."""
        start = Start(told)
        code, token = self.bind_step(b"GSSAPI", start.step())
        start.step(token)
        code, token = self.bind_step(b"GSSAPI", b"")
        offer = raw.unwrap(start.held, token).message
        if code != PROGRESS or offer[0] != NONE:
            return code
        return self.bind_step(b"GSSAPI", raw.wrap(start.held, bytes([NONE, 0, 0, 0]), False).message)[0]

    def by_spnego(self, told, layer=NONE, flags=USUAL, hints=False, service="ldap@localhost"):
        """The code of a bind by GSS-SPNEGO, with what may be negotiated asked for before or not."""
        if hints:
            code, token = self.bind_step(b"GSS-SPNEGO", None)
            if code != PROGRESS or not token:
                return code
        start = Start(told, service, NEGOTIATED, (*flags, *BY_LAYER[layer]))
        code, token = self.bind_step(b"GSS-SPNEGO", start.step())
        while code in (PROGRESS, SUCCESS) and not start.complete:
            answer = start.step(token)
            if code == PROGRESS:
                code, token = self.bind_step(b"GSS-SPNEGO", answer)
        if code == SUCCESS:
            self.context, self.layer = start.held, layer
        return code


def is_ended(client):
    """Whether the server has closed the connection, with or without a notice before."""
    try:
        while True:
            client.message()
    except (Closed, ConnectionError):
        return True
    except raw.GSSError:
        return False
