"""How a log and its replicas are: what `status` and `health` tell."""

import time

from adsd_tools.shown import shown, text_of

from .etcd import Away, Denied
from .ordered import Unformed
from .room import FULL, HALF, alarms, members

WELL, LOOK, STOPS = 0, 1, 3
# So long a replica that runs may have told nothing, in seconds.
SILENT = 60


def told(data):
    """What etcd has of a replica or a release, as it is shown."""
    return shown(text_of(data))


def of_log(log):
    """All that etcd tells of a log and its replicas."""
    release = text_of(log.its_release())  # (first, since a log of before has none)
    part, (found, _), alive, times = log.read(0, 0), log.replicas(), log.alive(), log.told()
    keeper, head = log.keeper(), part.head.number
    names = sorted({*found, *alive})
    return {
        "log": log.name, "id": log.own.decode("ascii", "replace"), "release": release,
        "first": part.first, "head": head, "head_id": part.head.id.hex(),
        "keeper": None if keeper is None else text_of(keeper),
        "replicas": [{
            "name": text_of(name), "entry": found.get(name), "behind": head - found[name] if name in found else None,
            "keeper": name == keeper, "runs": name in alive, "told": times.get(name),
            "silent": int(time.time()) - times[name] if name in times else None,
            **{key: alive.get(name, {}).get(key) for key in ("host", "pid", "store", "reads", "since")},
        } for name in names],
        "etcd": of_etcd(log.etcd),
    }


def of_etcd(etcd):
    """What members tell of their room, and what etcd complains of."""
    found = {one.url: one for one in members(etcd, {})}
    return {
        "members": [{"url": url.geturl(), "answers": url.geturl() in found, **room_of(found.get(url.geturl()))}
                    for url in etcd.urls],
        "alarms": [{"member": member, "alarm": alarm} for member, alarm in alarms(etcd)],
    }


def room_of(one):
    if one is None:
        return {}
    return {"leader": one.leads, "bytes": one.size, "used": one.used, "quota": one.quota}


def lines(state):
    """The lines of `status`."""
    yield f"log {state['log']} from {state['first']} to {state['head']}, of {state['release']}"
    for one in state["replicas"]:
        if one["entry"] is None:
            yield f"replica {one['name']} has told nothing yet"
            continue
        how = f"{one['behind']} behind" if one["behind"] >= 0 else "parted: it has more"
        yield f"replica {one['name']} at {one['entry']}, {how}{', keeper' if one['keeper'] else ''}{runs(one)}"


def runs(one):
    return "" if one["runs"] else ", doesn't run"


def faults(state, behind):
    """What isn't well: pairs of how bad it is, and a line."""
    for one in state["replicas"]:
        name = one["name"]
        if not one["runs"]:
            yield LOOK, f"replica {name} doesn't run"
        elif one["entry"] is None:
            yield LOOK, f"replica {name} has told nothing yet"
        elif one["behind"] < 0:
            yield LOOK, f"replica {name} has more than the log: docs/replicas.md, Parted"
        elif one["behind"] > behind:
            yield LOOK, f"replica {name} is {one['behind']} entries behind"
        elif one["silent"] is not None and one["silent"] > SILENT:
            yield LOOK, f"replica {name} has told nothing for {one['silent']} seconds"
    if not any(one["runs"] for one in state["replicas"]):
        yield STOPS, "no replica runs"
    elif state["keeper"] is None:
        yield LOOK, "no replica keeps the directory: no steps and no protection runs are put"
    yield from faults_of_etcd(state["etcd"])


def faults_of_etcd(etcd):
    for one in etcd["members"]:
        if not one["answers"]:
            yield LOOK, f"etcd's member {one['url']} doesn't answer"
            continue
        part = one["bytes"] / one["quota"]
        told = f"{one['url']} is full to {part:.0%} of its quota of {one['quota']} bytes"
        if part >= FULL:
            yield STOPS, f"{told}: no change is taken; docs/replicas.md, Where etcd is full"
        elif part >= HALF:
            yield LOOK, told
    for one in etcd["alarms"]:
        yield STOPS, f"etcd has the alarm {one['alarm']} at member {one['member']}"


def health(log_of, behind):
    """The status of `health`, and its lines."""
    try:
        log = log_of()
        state = of_log(log)
    except Unformed as why:
        return STOPS, [str(why)]
    except (Away, Denied) as why:
        return STOPS, [f"etcd doesn't answer: {why}"]
    found = list(faults(state, behind))
    if not found:
        return WELL, [f"log {state['log']} at {state['head']}, {len(state['replicas'])} replicas: all is well"]
    return max(how for how, _ in found), [line for _, line in found]
