"""How entries are written beyond the plain form: signed by the replica that puts them, and sealed.

A signature (Ed25519) says which replica put an entry, behind which one, and in which log. A seal (ChaCha20-Poly1305)
keeps who reads etcd, or its files, from what is changed, passwords too. Both need Debian's python3-cryptography, which
is loaded only where keys are given. Where a replica has keys it takes no entry that lacks what they are for."""

import base64
import hashlib
import os
import re
import stat

from adsd_tools.ask.words import Wrong
from adsd_tools.files import write

FLAGS = {"signed": 1, "sealed": 2}
KEY, SIGNATURE, NONCE, SECRET = 8, 64, 12, 32
SAID = b"adsd-replica entry 3\0"
ABSENT = "python3-cryptography isn't installed, and keys want it"


class Unsealed(Exception):
    """What isn't signed by one of the keys, or isn't sealed by the key; why."""


def is_there():
    """Whether there can be keys."""
    try:
        import cryptography  # noqa: F401
    except ImportError:
        return False
    return True


def raw_of(key):
    from cryptography.hazmat.primitives import serialization as forms

    return key.public_bytes(forms.Encoding.Raw, forms.PublicFormat.Raw)


def name_of(public):
    """What stands in an entry for a key."""
    return hashlib.sha256(public).digest()[:KEY]


def private_text(path):
    """The text of a file that nobody else may read."""
    try:
        with open(path, encoding="utf-8") as file:
            found = os.fstat(file.fileno())
            if found.st_uid not in (os.geteuid(), 0) or stat.S_IMODE(found.st_mode) & 0o077:
                raise Wrong(f"{path} may be read or written by others than its owner, or isn't yours: chmod 600")
            return file.read().strip()
    except (OSError, UnicodeDecodeError) as fault:
        raise Wrong(f"{path}: {getattr(fault, 'strerror', None) or 'not text'}") from None


def public_keys(path):
    """The keys of a file with a line for each replica: its key in base64, and its name."""
    found = {}
    try:
        with open(path, encoding="utf-8") as file:
            if os.fstat(file.fileno()).st_mode & 0o022:
                raise Wrong(f"{path} may be written by others than its owner")
            lines = [line.split() for line in file if line.strip() and not line.startswith("#")]
    except (OSError, UnicodeDecodeError) as fault:
        raise Wrong(f"{path}: {getattr(fault, 'strerror', None) or 'not text'}") from None
    for words in lines:
        public = secret_of(words[0], path)
        found[name_of(public)] = public, words[1] if len(words) > 1 else "?"
    return found


def secret_of(text, path):
    """The 32 bytes of a key."""
    try:
        made = base64.b64decode(text, validate=True)
    except ValueError:
        made = b""
    if len(made) != SECRET:
        raise Wrong(f"{path}: a key is {SECRET} bytes in base64, as adsd-replica key makes it")
    return made


def make_key(path, name=None):
    """Writes a new key for its owner alone, and gives the line of the file of keys: for a name that of the public
    key, else nothing."""
    secret = os.urandom(SECRET)
    write(path, base64.b64encode(secret) + b"\n", new=True)
    if name is None:
        return None
    from cryptography.hazmat.primitives.asymmetric.ed25519 import Ed25519PrivateKey

    public = raw_of(Ed25519PrivateKey.from_private_bytes(secret).public_key())
    return f"{base64.b64encode(public).decode()} {name}"


class Plain:
    """Entries without signatures and seals."""

    flags = 0

    def closed(self, own, front, body):
        """What stands behind an entry's front."""
        return body

    def opened(self, own, front, flags, held):
        """The body of what stands behind an entry's front; Unsealed where it isn't as it has to be."""
        if flags:
            raise Unsealed("is signed or sealed, and there are no keys here: --keys, --seal")
        return held


PLAIN = Plain()


class Keys(Plain):
    """Entries by keys: `sign` is the file of the own key, `known` that of all replicas' public ones, `seal` that of the
    one by which entries are sealed. Each may be missing."""

    def __init__(self, sign=None, known=None, seal=None):
        try:
            from cryptography.hazmat.primitives.asymmetric import ed25519
            from cryptography.hazmat.primitives.ciphers.aead import ChaCha20Poly1305
        except ImportError:
            raise Wrong(ABSENT) from None
        self.kind, self.known = ed25519.Ed25519PublicKey, public_keys(known) if known else None
        self.own = self.name = self.box = None
        if sign:
            self.own = ed25519.Ed25519PrivateKey.from_private_bytes(secret_of(private_text(sign), sign))
            self.name = name_of(raw_of(self.own.public_key()))
            if self.known is not None and self.name not in self.known:
                raise Wrong(f"{known} hasn't the key of {sign}: no replica would take what this one puts")
        if seal:
            self.box = ChaCha20Poly1305(secret_of(private_text(seal), seal))
        self.flags = (FLAGS["signed"] if sign else 0) | (FLAGS["sealed"] if seal else 0)

    def closed(self, own, front, body):
        if self.box is not None:
            nonce = os.urandom(NONCE)
            body = nonce + self.box.encrypt(nonce, body, SAID + own + front)
        if self.own is not None:
            body = self.name + self.own.sign(SAID + own + front + self.name + body) + body
        return body

    def opened(self, own, front, flags, held):
        if flags & FLAGS["signed"]:
            held = self.signed(own, front, held)
        elif self.known is not None:
            raise Unsealed("isn't signed")
        if not flags & FLAGS["sealed"]:
            if self.box is not None:
                raise Unsealed("isn't sealed")
            return held
        if self.box is None:
            raise Unsealed("is sealed, and there is no key here: --seal")
        from cryptography.exceptions import InvalidTag

        try:
            return self.box.decrypt(held[:NONCE], held[NONCE:], SAID + own + front)
        except (InvalidTag, ValueError):
            raise Unsealed("isn't sealed by the key that is here") from None

    def signed(self, own, front, held):
        """What stands behind a signature, where it is that of a known key."""
        name, signature, body = held[:KEY], held[KEY : KEY + SIGNATURE], held[KEY + SIGNATURE :]
        if self.known is None:
            return body
        if name not in self.known:
            raise Unsealed(f"is signed by a key that isn't known here: {name.hex()}")
        from cryptography.exceptions import InvalidSignature

        try:
            self.kind.from_public_bytes(self.known[name][0]).verify(signature, SAID + own + front + name + body)
        except (InvalidSignature, ValueError):
            raise Unsealed(f"isn't signed by {self.known[name][1]}, whose key it names") from None
        return body


def keys_of(asked):
    """The keys that the words of a command name."""
    files = [getattr(asked, one, None) for one in ("sign", "keys", "seal")]
    return Keys(*files) if any(files) else PLAIN


def password_of(path):
    """The password of a file that nobody else may read: its first line."""
    text = private_text(path)
    found = re.match(r"[^\r\n]+", text)
    if not found:
        raise Wrong(f"{path}: there is no password in it")
    return found[0]
