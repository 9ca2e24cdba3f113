"""What the records of workers say about the attempts of jobs, and the names that these have for processes."""
import json
from collections import defaultdict
from pathlib import Path


def process_of(pid):
    """What no other process has, not even a later one of this id."""
    return f"{pid}-{Path(f'/proc/{pid}/stat').read_text('ascii').rpartition(')')[2].split()[19]}"


def ends_in(paths):
    """What workers were told of each attempt, by payload and attempt: `ITEM`, and then `DONE`, `AGAIN`, `ERR`, or
    `nothing` where the reply never came."""
    told = defaultdict(list)
    for path in paths:
        held = {}
        with open(path, encoding="ascii") as file:
            for line in map(json.loads, file):
                for words in (it.split(" ") for it in line["reply"]):
                    if words[0] == "ITEM":
                        held[line["session"], words[1]] = job = words[4], int(words[3])
                        told[job].append("ITEM")
                keyword, _, id = line["request"].partition(" ")
                if keyword in ("DONE", "FAIL"):
                    reply = line["reply"][0].split(" ")[0] if line["reply"] else "nothing"
                    told[held[line["session"], id]].append(reply)
    return told
