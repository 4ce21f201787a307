#!/usr/bin/env python3
"""Writes the records of a schema: make.py FILE [ATTRIBUTES CLASSES], 1,500 and 270 if not given; or make.py FILE chain N, or
make.py FILE names N.

Each record is its kind, its lines `name:value`, and an empty line. Every fifth class is auxiliary; a class has a superclass
among the earlier ones, up to three auxiliary classes, some twenty attributes and three possible superiors. The text is the
same at every run.

`chain N` has N classes, each the superclass of the one before it, and each with the next as its auxiliary class too. `names N`
has N attributes whose names a polynomial hash of base 257 can't tell apart: `miftnad` and `mhjnred` in all orders."""
import random
import sys


def chain(count):
    out = [["attribute", "lDAPDisplayName:cn", "attributeSyntax:2.5.5.12", "schemaIDGUID:a%015d" % 0]]
    for i in range(count):
        above = "lDAPDisplayName:link%d" % i, "schemaIDGUID:c%015d" % i, "subClassOf:link%d" % min(i + 1, count - 1)
        out.append(["class", *above, "auxiliaryClass:link%d" % min(i + 1, count - 1)])
    return out


def names(count):
    out = [["attribute", "lDAPDisplayName:cn", "attributeSyntax:2.5.5.12", "schemaIDGUID:a%015d" % 0]]
    for i in range(count):
        name = "".join("mhjnred" if i >> k & 1 else "miftnad" for k in range((count - 1).bit_length()))
        out.append(["attribute", "lDAPDisplayName:" + name, "attributeSyntax:2.5.5.12", "schemaIDGUID:b%015d" % i])
    return out


def usual(attrs, classes):
    rng, out = random.Random(7), []
    for i in range(attrs):
        name = "cn" if i == 0 else "attribute-of-the-schema-%d" % i
        record = ["attribute", "lDAPDisplayName:" + name, "attributeSyntax:2.5.5.12", "schemaIDGUID:a%015d" % i]
        if i % 3 == 0:
            record.append("attributeSecurityGUID:s%015d" % (i % 17))
        out.append(record)
    for i in range(classes):
        above = rng.randrange(i // 2, i) if i else 0
        above -= above % 5 == 4
        record = ["class", "lDAPDisplayName:class-of-the-schema-%d" % i, "schemaIDGUID:c%015d" % i]
        record.append("subClassOf:class-of-the-schema-%d" % above)
        record.append("objectClassCategory:%d" % (3 if i % 5 == 4 else 1))
        for _ in range(0 if i % 5 == 4 else rng.randrange(4)):
            record.append("auxiliaryClass:class-of-the-schema-%d" % (5 * rng.randrange(classes // 5) + 4))
        for _ in range(20):
            record.append("mayContain:" + ("Attribute-Of-The-Schema-%d" % rng.randrange(1, attrs)))
        for _ in range(3):
            record.append("possSuperiors:class-of-the-schema-%d" % rng.randrange(classes))
        out.append(record)
    return out


def main():
    path, asked = sys.argv[1], sys.argv[2:4]
    if asked and asked[0] in ("chain", "names"):
        out = (chain if asked[0] == "chain" else names)(int(asked[1]))
    else:
        out = usual(*(int(a) for a in asked or ("1500", "270")))
    with open(path, "w") as f:
        for record in out:
            f.write("\n".join(record) + "\n\n")
    print("%d records" % len(out))


if __name__ == "__main__":
    main()
