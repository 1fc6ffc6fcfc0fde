"""A cluster as Pacemaker's own simulation has it: its state after faults, and the order of
steps."""
from __future__ import annotations

import pathlib
import re
from xml.etree import ElementTree
from xml.etree.ElementTree import Element, SubElement

from support.world import done

# What DRBD's agent says of a copy that is up to date, and of one that isn't.
CURRENT, OLD = "10000", "5"


class Simulated:
    """A cluster's whole state, in a file; each fault is a new one."""

    def __init__(self, place: pathlib.Path, configuration: str) -> None:
        self.place, self.state = place, place / "state.xml"
        self.graph = place / "graph.xml"
        head = '<cib validate-with="pacemaker-3.9" epoch="1" num_updates="0" admin_epoch="0">'
        self.state.write_text(f"{head}{configuration}<status/></cib>")
        self.told = ""

    def after(self, *words: str, quorum: bool = True) -> Simulated:
        """The state after what these words of crm_simulate inject, once all is carried out."""
        made = self.place / "next.xml"
        asked = ["crm_simulate", "--xml-file", self.state, "--simulate", "--save-output", made]
        asked += ["--save-graph", self.graph, "--quorum", str(quorum).lower(), *words]
        self.told = done(*asked)
        made.replace(self.state)
        return self

    def up(self) -> Simulated:
        """All three machines come, DRBD says that both copies are current, all is started."""
        self.after("--node-up", "m1", "--node-up", "m2", "--node-up", "m3")
        self.says({"m1": CURRENT, "m2": CURRENT})
        return self.after()

    def says(self, scores: dict[str, str], shards: tuple[str, ...] = ("01", "02")) -> None:
        """What DRBD's agent says of the machines' copies."""
        tree = ElementTree.parse(self.state)
        for state in tree.iter("node_state"):
            name = state.attrib["uname"]
            for old in state.findall("transient_attributes"):
                state.remove(old)
            if name in scores:
                within = SubElement(state, "transient_attributes", id=name)
                pairs = SubElement(within, "instance_attributes", id=f"said-{name}")
                for shard in shards:
                    told = {"name": f"master-drbd{shard}", "value": scores[name]}
                    SubElement(pairs, "nvpair", told, id=f"said-{name}-{shard}")
        tree.write(self.state)

    def marks(self, shard: str, machine: str) -> None:
        """What crm-fence-peer.sh adds: the other copy of a shard is old."""
        tree = ElementTree.parse(self.state)
        constraints = tree.getroot().find(".//constraints")
        assert constraints is not None
        name = f"drbd-fence-by-handler-ocs-{shard}-disk{shard}"
        made = SubElement(constraints, "rsc_location", id=name, rsc=f"disk{shard}")
        rule = SubElement(made, "rule", id=f"{name}-rule", role="Master", score="-INFINITY")
        SubElement(
            rule,
            "expression",
            id=f"{name}-expr",
            attribute="#uname",
            operation="ne",
            value=machine,
        )
        tree.write(self.state)

    def where(self, resource: str) -> str:
        """The machine that a resource is started on; empty where it is stopped."""
        now = self.told.rpartition("Revised")[2]
        told = re.search(rf"\* {resource}\t.*?(?:Started (\S+)|Stopped)", now)
        assert told, now
        return told[1] or ""

    def promoted(self, shard: str) -> str:
        """The machine that is promoted for a shard's disk; empty where none is."""
        told = self.told.rpartition("Revised")[2]
        part = told[told.index(f"disk{shard} ") :].partition("Group")[0]
        found = re.search(r"Promoted: \[ (\S+) \]", part.replace("Unpromoted", ""))
        return found[1] if found else ""

    def fenced(self) -> list[str]:
        """The machines that the last transition fences."""
        return re.findall(r"Fencing (\S+) \(off\)", self.told)

    def before(self, key: str, machine: str) -> set[str]:
        """The steps that come before a step on a machine in the last transition, each by its key; a
        step that failed stops all that come after it."""
        graph = ElementTree.parse(self.graph)
        first: dict[str, list[str]] = {}
        ids: dict[str, str] = {}
        for synapse in graph.iter("synapse"):
            [step] = list(synapse.findall("action_set/*"))
            ids[step.attrib["id"]] = label(step)
            first[step.attrib["id"]] = [each.attrib["id"] for each in synapse.findall("inputs/*/*")]
        [begun] = [id for id, name in ids.items() if name == f"{key} {machine}"]
        found, waiting = set[str](), [begun]
        while waiting:
            for id in first[waiting.pop()]:
                if id not in found:
                    found.add(id)
                    waiting.append(id)
        return {ids[id] for id in found}


def label(step: Element) -> str:
    """A step's key and its machine."""
    told = step.attrib
    return f"{told.get('operation_key', '')} {told.get('on_node', '')}".strip()
