#!/usr/bin/env python3
"""Writes an LDIF text like a directory's export: make.py FILE MEGABYTES.

Each record is a user of about 1,600 bytes: some twenty attributes, a folded description, a descriptor in folded
base64, a comment. Every tenth record ends its lines by CR LF. The text is the same at every run."""
import base64
import random
import sys


def folded(line, width=76):
    """The line, cut so that no physical line has more than width bytes."""
    parts, rest = [line[:width]], line[width:]
    while rest:
        parts.append(" " + rest[: width - 1])
        rest = rest[width - 1 :]
    return parts


def user(i, rng):
    ou = "OU=unit%d,DC=corp,DC=example" % (i % 97)
    name = "user%06d" % i
    lines = ["# " + name, "dn: CN=%s,%s" % (name, ou), "changetype: add"]
    for cls in ("top", "person", "organizationalPerson", "user"):
        lines.append("objectClass: " + cls)
    lines += [
        "cn: " + name,
        "sAMAccountName: " + name,
        "userPrincipalName: %s@corp.example" % name,
        "mail: %s@mail.corp.example" % name,
        "telephoneNumber: +49 30 %07d" % rng.randrange(10**7),
        "streetAddress: %d Long Street" % rng.randrange(1, 400),
        "title: " + rng.choice(("Engineer", "Clerk", "Manager", "Physician")),
        "company: Corp of Examples",
        "userAccountControl: 512",
        "primaryGroupID: 513",
    ]
    words = ("network", "office", "building", "account", "temporary", "project", "floor", "team")
    lines += folded("description: " + " ".join(rng.choice(words) for _ in range(40)))
    lines += folded("objectGUID:: " + base64.b64encode(rng.randbytes(16)).decode())
    lines += folded("objectSid:: " + base64.b64encode(rng.randbytes(28)).decode())
    lines += folded("nTSecurityDescriptor:: " + base64.b64encode(rng.randbytes(420)).decode())
    end = "\r\n" if i % 10 == 9 else "\n"
    return (end.join(lines) + end + end).encode()


def main():
    path, limit = sys.argv[1], int(sys.argv[2]) * 1_000_000
    rng, size, i = random.Random(7), 0, 0
    with open(path, "wb") as out:
        while True:
            text = user(i, rng)
            if size + len(text) > limit:
                break
            out.write(text)
            size, i = size + len(text), i + 1
    print("%d records, %d bytes" % (i, size))


if __name__ == "__main__":
    main()
