"""The messages of etcd's published protocol (rpc.proto, kv.proto) that replicas need: as protobuf has them in bytes,
and as etcd's JSON gateway tells them, bytes in base64, numbers of 64 bits as texts, and nothing of what is zero."""

import base64
from typing import Any, Dict, Iterator, Tuple

BYTES, TEXT, NUMBER, TRUTH = "bytes", "text", "number", "truth"
ENUMS = {"Result": ("EQUAL", "GREATER", "LESS", "NOT_EQUAL"), "Target": ("VERSION", "CREATE", "MOD", "VALUE", "LEASE"),
         "Order": ("NONE", "ASCEND", "DESCEND"), "Sorted": ("KEY", "VERSION", "CREATE", "MOD", "VALUE"),
         "Filter": ("NOPUT", "NODELETE"), "Happened": ("PUT", "DELETE")}
HEADER = {"header": (1, "Header")}
# Each message: its fields by name, with number and kind. A kind in a list is repeated.
FORMS: Dict[str, Dict[str, Tuple[int, Any]]] = {
    "Header": {"cluster_id": (1, NUMBER), "member_id": (2, NUMBER), "revision": (3, NUMBER), "raft_term": (4, NUMBER)},
    "KeyValue": {"key": (1, BYTES), "create_revision": (2, NUMBER), "mod_revision": (3, NUMBER), "version": (4, NUMBER),
                 "value": (5, BYTES), "lease": (6, NUMBER)},
    "Compare": {"result": (1, "Result"), "target": (2, "Target"), "key": (3, BYTES), "version": (4, NUMBER),
                "create_revision": (5, NUMBER), "mod_revision": (6, NUMBER), "value": (7, BYTES), "lease": (8, NUMBER),
                "range_end": (64, BYTES)},
    "Range": {"key": (1, BYTES), "range_end": (2, BYTES), "limit": (3, NUMBER), "revision": (4, NUMBER),
              "sort_order": (5, "Order"), "sort_target": (6, "Sorted"), "serializable": (7, TRUTH),
              "keys_only": (8, TRUTH), "count_only": (9, TRUTH)},
    "Put": {"key": (1, BYTES), "value": (2, BYTES), "lease": (3, NUMBER)},
    "Delete": {"key": (1, BYTES), "range_end": (2, BYTES)},
    "Request": {"request_range": (1, "Range"), "request_put": (2, "Put"), "request_delete_range": (3, "Delete")},
    "Txn": {"compare": (1, ["Compare"]), "success": (2, ["Request"]), "failure": (3, ["Request"])},
    "Compaction": {"revision": (1, NUMBER), "physical": (2, TRUTH)},
    "Grant": {"TTL": (1, NUMBER), "ID": (2, NUMBER)},
    "Lease": {"ID": (1, NUMBER)},
    "Authenticate": {"name": (1, TEXT), "password": (2, TEXT)},
    "Watch": {"create_request": (1, "Create")},
    "Create": {"key": (1, BYTES), "range_end": (2, BYTES), "start_revision": (3, NUMBER), "filters": (5, ["Filter"]),
               "fragment": (8, TRUTH)},
    "Answer": HEADER,
    "Ranged": {**HEADER, "kvs": (2, ["KeyValue"]), "more": (3, TRUTH), "count": (4, NUMBER)},
    "Deleted": {**HEADER, "deleted": (2, NUMBER)},
    "Response": {"response_range": (1, "Ranged"), "response_put": (2, "Answer"),
                 "response_delete_range": (3, "Deleted")},
    "Done": {**HEADER, "succeeded": (2, TRUTH), "responses": (3, ["Response"])},
    "Granted": {**HEADER, "ID": (2, NUMBER), "TTL": (3, NUMBER), "error": (4, TEXT)},
    "Known": {**HEADER, "token": (2, TEXT)},
    "Event": {"type": (1, "Happened"), "kv": (2, "KeyValue")},
    "Told": {**HEADER, "watch_id": (2, NUMBER), "created": (3, TRUTH), "canceled": (4, TRUTH),
             "compact_revision": (5, NUMBER), "cancel_reason": (6, TEXT), "fragment": (7, TRUTH),
             "events": (11, ["Event"])},
}
NAMES = {form: {number: (name, kind) for name, (number, kind) in fields.items()} for form, fields in FORMS.items()}
VARINT, FIXED, COUNTED, SHORT = 0, 1, 2, 5
LONG = 1 << 64


class Garbled(ValueError):
    """Bytes that are no message."""


def number_of(value: int) -> bytes:
    """A number as protobuf has it: seven bits a byte."""
    made, value = bytearray(), value % LONG
    while value > 127:
        made.append(value & 127 | 128)
        value >>= 7
    made.append(value)
    return bytes(made)


def field(number: int, kind: str, value: Any) -> bytes:
    """A field of a message, as JSON has its value."""
    if kind in (NUMBER, TRUTH):
        return number_of(number << 3 | VARINT) + number_of(int(value))
    if kind in ENUMS:
        return number_of(number << 3 | VARINT) + number_of(ENUMS[kind].index(value))
    if kind == BYTES:
        data = base64.b64decode(value)
    else:
        data = value.encode() if kind == TEXT else written(kind, value)
    return number_of(number << 3 | COUNTED) + number_of(len(data)) + data


def written(form: str, value: Dict[str, Any]) -> bytes:
    """The bytes of a message."""
    made = []
    for name, one in value.items():
        number, kind = FORMS[form][name]
        if isinstance(kind, list):
            made += [field(number, kind[0], each) for each in one]
        else:
            made.append(field(number, kind, one))
    return b"".join(made)


def number_at(data: bytes, at: int) -> Tuple[int, int]:
    """The number that stands at a place, and the place behind it."""
    if at < len(data) and data[at] < 128:
        return data[at], at + 1
    made = shift = 0
    while at < len(data) and shift < 70:
        byte = data[at]
        made, at = made | (byte & 127) << shift, at + 1
        if byte < 128:
            return made % LONG, at
        shift += 7
    raise Garbled("a number is cut short")


def parts(data: bytes) -> Iterator[Tuple[int, Any]]:
    """The fields of a message: their numbers, and a number or bytes."""
    at = 0
    while at < len(data):
        key, at = number_at(data, at)
        way = key & 7
        if way == VARINT:
            value, at = number_at(data, at)
            yield key >> 3, value
            continue
        size, at = number_at(data, at) if way == COUNTED else ({FIXED: 8, SHORT: 4}.get(way, len(data) + 1), at)
        if at + size > len(data):
            raise Garbled("a field is cut short")
        yield key >> 3, data[at : at + size]
        at += size


def told(kind: str, value: Any) -> Any:
    """A value as JSON has it."""
    if isinstance(value, int) != (kind in (NUMBER, TRUTH) or kind in ENUMS):
        raise Garbled(f"a field of the kind {kind} is of another form")
    if kind == NUMBER:
        return str(value)
    if kind == TRUTH:
        return bool(value)
    if kind in ENUMS:
        return ENUMS[kind][value] if value < len(ENUMS[kind]) else str(value)
    if kind == BYTES:
        return base64.b64encode(value).decode()
    return value.decode("utf-8", "replace") if kind == TEXT else read(kind, value)


def read(form: str, data: bytes) -> Dict[str, Any]:
    """The message of some bytes; what isn't known here is passed over."""
    made: Dict[str, Any] = {}
    for number, value in parts(data):
        name, kind = NAMES[form].get(number, ("", BYTES))
        if not name:
            continue
        if isinstance(kind, list):
            made.setdefault(name, []).append(told(kind[0], value))
        else:
            made[name] = told(kind, value)
    return made
