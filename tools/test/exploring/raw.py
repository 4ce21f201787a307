"""No answer has a raw control, mark of direction or line separator, wherever a text of the directory stands in it: such a
character is a backslash and two upper-case digits for each of its bytes. And the page itself puts no such text anywhere."""

import json
import os
import shutil
import subprocess

from . import corp
from .web import Served, texts

# The characters, by the rule of names in lines.
NEVER = [*range(0x20), *range(0x7F, 0xA0), 0x61C, 0x200E, 0x200F, *range(0x2028, 0x202F), *range(0x2066, 0x206A), 0xFEFF]
# How the hostile names and rights are told, by hand.
TOLD = ["\\01\\07\\1B[2J\\0D\\0A\\09", "\\E2\\80\\AEgnp.\\E2\\81\\A6x\\E2\\80\\8F\\E2\\80\\A8\\EF\\BB\\BF",
        "\\7F\\C2\\85\\C2\\9B31m\\D8\\9C\\E2\\80\\8E\\E2\\80\\A9\\E2\\81\\A9", "re\\E2\\80\\AEset\\1B[8m\\C2\\85\\0A"]
PAGE = os.path.join(corp.TOP, "tools", "adsd_tools", "explore", "page")
# What the page does with a text, asked of its own script.
SCRIPT = """
import {shown} from %s;
const asked = %s, made = {};
for (const one of asked) made[one] = shown(String.fromCodePoint(one));
made.text = shown("a\\u202eb\\n") + shown("plain \\u00e9 \\u05d0");
console.log(JSON.stringify(made));
"""


def answers(served):
    """Everything that is answered about the hostile objects, as texts of JSON."""
    _, told = served.get("find", q="odd")
    unit = told["found"][0]["n"]
    yield from asked(served, ("start", {}), ("classes", {}), ("exposed", {}), ("children", {"n": 1}), ("children", {"n": unit}))
    _, below = served.get("children", n=unit)
    changes = []
    for one in below["below"]:
        number, about = one["n"], served.get("object", n=one["n"])[1]
        yield from asked(served, ("object", {"n": number}), ("askable", {"n": number}), ("find", {"q": about["sid"][-4:]}),
                         ("principal", {"sid": about["sid"]}), ("can", {"sid": f"{corp.DOMAIN}-1301", "n": number}))
        for kind, name, code in (right for row in about["dangers"] for right in row["rights"]):
            yield from asked(served, ("who", {"n": number, "kind": kind, "name": name, "code": code}))
        changes.append({"op": "add", "n": number, "ace": f"(A;;WD;;;{about['sid']})"})
        changes.append({"op": "add", "n": number, "ace": f"(OA;;CR;{corp.GUID_OF_RIGHT}2;;AU)"})
    for text in ("gnp", "[2J", "31m", "\u202e", "<"):
        yield from asked(served, ("find", {"q": text}), ("whom", {"q": text}))
    status, told = served.post("try", {"changes": changes})
    yield status, told
    for what in ("moment", "gains"):
        yield from asked(served, (what, {"plan": told["plan"]}))
    yield from asked(served, ("gained", {"plan": told["plan"], "sid": "S-1-5-11"}), ("frames", {"plan": told["plan"]}))
    status, _, data = served.ask(f"{served.path}api/frames?plan={told['plan']}&form=text")
    yield status, data.decode().split("\n")


def asked(served, *requests):
    for what, words in requests:
        yield served.get(what, **words)


def page(tries):
    """The page's own function does the same, character by character, and every text that it puts goes through it."""
    node = shutil.which("node")
    if node is None:
        print("explore: node isn't installed, so that the page's function for texts wasn't tried alone")
    else:
        script = SCRIPT % (json.dumps("file://" + os.path.join(PAGE, "shown.js")), json.dumps([*NEVER, 0x20, 0x7E, 0xA0, 0xE9, 0x10FFFF]))
        done = subprocess.run([node, "--input-type=module"], input=script, capture_output=True, text=True)
        told = json.loads(done.stdout or "{}")
        wrong = [hex(one) for one in NEVER if told.get(str(one)) != "".join(f"\\{byte:02X}" for byte in chr(one).encode())]
        tries.check(not wrong, f"the page shows these otherwise: {wrong} {done.stderr[-200:]}")
        tries.check(all(told.get(str(one)) == chr(one) for one in (0x20, 0x7E, 0xA0, 0xE9, 0x10FFFF)), "a letter is spelled")
        tries.check(told.get("text") == "a\\E2\\80\\AEb\\0Aplain \u00e9 \u05d0", f"a text: {told.get('text')}")


def run(tries):
    """All of it, over the store with hostile names and rights."""
    corp.load(tries.path("named"), hostile=True, rights=True)
    served = Served(tries.path("named"))
    try:
        found = set()
        for status, made in answers(served):
            tries.check(status == 200, f"{status}: {str(made)[:80]}")
            told = set(texts(made))
            bad = sorted({hex(ord(one)) for text in told for one in text if ord(one) in NEVER})
            tries.check(not bad, f"raw: {bad} in {str(made)[:200]!a}")
            found |= told
        for wanted in TOLD:
            tries.check(any(wanted in text for text in found), f"{wanted} isn't told anywhere")
        number = served.get("find", q="gnp")[1]["found"][0]["n"]
        words = {"n": number, "kind": "right", "code": "CR"}
        status, told = served.get("who", name=f"{corp.GUID_OF_RIGHT}1", **words)
        tries.check(status == 200 and told["count"] == 3, f"who has a right with a hostile name: {status} {told}")
        status, told = served.get("who", name=TOLD[3], **words)
        tries.check(status == 404, f"a right that is told by its GUID, by its name: {status} {told}")
        status, told = served.get("who", name="twin\\E2\\81\\A6", **words)
        tries.check(status == 200 and told["count"] == 2, f"a right whose name looks like another's: {status} {told}")
        status, told = served.get("who", name="re\u202eset\x1b[8m\x85\n", **words)
        tries.check(status == 404, f"a raw name: {status} {told}")
    finally:
        tries.check(served.end() == (0, ""), "the explorer of hostile names didn't end well")
    page(tries)
    strange = tries.path("odd\u202e\x1b[2J\n")
    said = subprocess.run([os.path.join(corp.TOP, "tools", "adsd-explore"), strange], capture_output=True, text=True)
    tries.check(said.returncode == 1 and "odd\\E2\\80\\AE\\1B[2J\\0A: there is no such file" in said.stderr and said.stderr.count("\n") == 1,
                f"a hostile name of a store: {said}")
