"""TLS: a certificate's context, and StartTLS on a connection (RFC 4511 4.14)."""

import asyncio
import ssl

# So long a client has for its part, in seconds.
HANDSHAKE = 10
START = b"1.3.6.1.4.1.1466.20037"


class NoCertificate(Exception):
    """Files that are no certificate with its key, with why."""


def context(certificate, key):
    """What a certificate and its key make; TLS 1.2 and later ones."""
    made = ssl.SSLContext(ssl.PROTOCOL_TLS_SERVER)
    made.minimum_version = ssl.TLSVersion.TLSv1_2
    try:
        made.load_cert_chain(certificate, key)
    except (OSError, ValueError) as fault:
        why = getattr(fault, "strerror", None) or str(fault)
        raise NoCertificate(f"{certificate}: no certificate with its key: {why}") from None
    return made


def is_quiet(reader):
    """Whether nothing has come behind what was read: a client waits for the answer to StartTLS, and what is there
    in the clear might be anybody's."""
    return not reader._buffer  # Streams have no other way to tell.


async def start(reader, writer, made):
    """Goes on under TLS; the writer of that. The reader stays, since all that it has from now on came by TLS."""
    loop, protocol = asyncio.get_running_loop(), writer.transport.get_protocol()
    transport = await loop.start_tls(writer.transport, protocol, made, server_side=True,
                                     ssl_handshake_timeout=HANDSHAKE)
    # Python has StreamWriter.start_tls from 3.11 on, which does the same.
    reader._transport, protocol._over_ssl = transport, True
    return asyncio.StreamWriter(transport, protocol, reader, loop)
