"""What the frames leave in the security log: the lines of the program's command `audit`, as a table."""

from typing import List

from adsd_tools.lines import Event

from .html import code, table, tag, text, yes_no
from .told import Teller

HEADS = ["frame", "connection", "it was", "right", "on", "by", "object"]
MOST = 2000
ABOUT = """These are the lines of the program's command <code>audit</code> over the frames: what each access would have left,
by the system list that stood before it. The frame is its place among them."""
NOTHING = "No entry of a system list asks for an event of these frames."


def row(event: Event, told: Teller) -> str:
    cells = [text(str(event.frame)), text(str(event.connection)), yes_no(event.granted, "granted", "refused"), code(event.code),
             "the object" if event.guid is None else text(told.schema.type_name(event.guid)), told.sid(event.sid), text(event.name)]
    return "<tr>" + "".join(tag("td", cell) for cell in cells) + "</tr>"


def markup(events: List[Event], told: Teller) -> str:
    """The section's inside."""
    if not events:
        return tag("p", NOTHING)
    more = tag("p", f"{len(events) - MOST:,} further events aren't shown.") if len(events) > MOST else ""
    return tag("p", ABOUT) + table("", HEADS, [row(event, told) for event in events[:MOST]], aria_label="events") + more
