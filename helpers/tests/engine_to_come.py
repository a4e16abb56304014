#!/usr/bin/env python3
"""An engine with the requests that srv6-pce hasn't yet, over the one at $BELOW: plans, `again`, and a `judge` that says of each list that it
realizes its intent. With it tests see how tools ask for these.
"""

import json
import os
import subprocess
import sys
from pathlib import Path

sys.path.insert(0, str(Path(__file__).resolve().parents[1]))

from srv6tools.planned import Planned

JUDGED = {"answer": "realizes", "containers": 1, "least": True, "need": 4, "sids": 2, "within": True}
PLANS: dict[str, Planned] = {}


def changed(asked: dict) -> dict:
    """What is asked of the engine below."""
    if asked["do"] == "load" and asked.get("plan_file"):
        planned = PLANS[asked["as"]] = Planned(asked["file"], asked["plan_file"])
        return {"do": "load", "as": asked["as"], "network": planned.text(planned.whole), "id": asked["id"]}
    if asked["do"] == "without" and asked.get("routes") == "again":
        planned = PLANS[asked["from"]]
        net = planned.again(planned.down(asked["links"], asked["nodes"]))
        return {"do": "load", "as": asked["as"], "network": planned.text(net), "id": asked["id"]}
    return {key: value for key, value in asked.items() if key != "plan"}


def main() -> None:
    """Answers each line."""
    below = subprocess.Popen([os.environ["BELOW"]], stdin=subprocess.PIPE, stdout=subprocess.PIPE)
    held: set[str] = set()
    for line in sys.stdin.buffer:
        asked = json.loads(line)
        if asked["do"] == "judge":
            known = asked["in"] in held
            said = {"ok": JUDGED} if known else {"error": {"name": "UnknownName", "unknown": asked["in"]}}
            reply = json.dumps(said | {"id": asked["id"]}).encode() + b"\n"
        else:
            below.stdin.write(json.dumps(changed(asked)).encode() + b"\n")
            below.stdin.flush()
            reply = below.stdout.readline()
            held.add(asked.get("as", ""))
        sys.stdout.buffer.write(reply)
        sys.stdout.buffer.flush()


if __name__ == "__main__":
    main()
