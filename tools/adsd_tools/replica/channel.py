"""What two replicas say to each other directly: each piece is sealed by a secret that both have.

The secret is 32 random bytes, as `adsd-replica key FILE` makes them. Each side draws 32 bytes for a connection; of
these and the secret a key is made for each direction (HKDF with SHA-256). A piece has its length before it and is
sealed by ChaCha20-Poly1305 with its number in the connection as the nonce: so none can be read, made, left out, put
elsewhere or taken from another connection without the secret. Who is who is known by the first piece that opens."""

from typing import Tuple

HELLO, DRAWN, LENGTH, MOST = b"adsd-replica copy 2\n", 32, 4, (1 << 20) + 64


class Foreign(Exception):
    """The other side hasn't the secret, or something came between."""


def derived(secret: bytes, drawn: bytes, side: bytes) -> bytes:
    """The key of what one side says on a connection for which both have drawn these bytes."""
    from cryptography.hazmat.primitives.hashes import SHA256
    from cryptography.hazmat.primitives.kdf.hkdf import HKDF

    return HKDF(algorithm=SHA256(), length=32, salt=drawn, info=HELLO + side).derive(secret)


class Way:
    """One direction of a connection."""

    def __init__(self, key: bytes) -> None:
        from cryptography.hazmat.primitives.ciphers.aead import ChaCha20Poly1305

        self.box, self.count = ChaCha20Poly1305(key), 0

    def nonce(self) -> bytes:
        self.count += 1
        return self.count.to_bytes(12, "big")

    def closed(self, piece: bytes) -> bytes:
        """The next piece as it is sent."""
        held = self.box.encrypt(self.nonce(), piece, HELLO)
        return len(held).to_bytes(LENGTH, "big") + held

    def opened(self, held: bytes) -> bytes:
        """The next piece of what came behind its length."""
        from cryptography.exceptions import InvalidTag

        try:
            return self.box.decrypt(self.nonce(), held, HELLO)
        except InvalidTag:
            raise Foreign("the other side hasn't this secret, or something came between") from None


def size_of(head: bytes) -> int:
    """How long a piece is, by what stands before it."""
    size = int.from_bytes(head, "big")
    if not 16 <= size <= MOST:
        raise Foreign("what came is no piece")
    return size


def ways(secret: bytes, first: bytes, second: bytes) -> Tuple[Way, Way]:
    """The directions of a connection for which who asks has drawn some bytes, and who answers some: what is asked, and
    what is answered."""
    return Way(derived(secret, first + second, b"asks")), Way(derived(secret, first + second, b"answers"))
