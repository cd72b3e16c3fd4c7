#!/usr/bin/env python3
"""Boots the devices of three examples over a pseudo terminal, behind which are an adapter and slaves of another make.

    python3 tools/boot_machines.py [NAME..]

The adapter and the slaves stand in tools/machine/, and share nothing with canplan: they read the EDS and DCF files by themselves.
Of each case it is seen what the program says and its status, which NMT commands were on the bus, and, where all nodes are
ready, that each device has what its DCF file says. Where devices are asked whether they are as planned, or what they are, of frames requests of uploads alone come.
An NMT command is the only frame that is sent. The documents of scans and of single values meet docs/schema.json (Debian's python3-jsonschema).
A case whose name holds one of the words given is run, or each.
"""
import json
import os
import re
import shutil
import subprocess
import sys
import tempfile
import time

import jsonschema

from files import bytes_of, network_in

sys.path.append(f"{os.path.dirname(os.path.realpath(__file__))}/machine")
from telling import NAME, answering, naming_faults, scanned_text  # noqa: E402

HERE = os.path.dirname(os.path.dirname(os.path.realpath(__file__)))
PROGRAM = os.environ.get("CANPLAN", f"{HERE}/bin/canplan")
RIG = f"{HERE}/tools/machine/rig.py"
SCHEMA = json.loads(bytes_of(f"{HERE}/docs/schema.json"))

# A case: the example, the words of the rig, how the nodes end that are not ready, and what else is expected: the status, where it is not 0 or 3,
# and the words of the program.
CASES = {
    "valve": ("valve", "", {}),
    "conveyor": ("conveyor", "", {}),
    "crane": ("crane", "", {}),
    "stamps, small letters, answers by CR": ("valve", "--stamps --lower --answers cr", {}),
    "no answers of the adapter, byte by byte": ("valve", "--answers none --chunk 1", {}),
    "garbage and other traffic": ("valve", "--garbage 0.6 --traffic 20 --chunk 13", {}),
    "traffic at the crane": ("crane", "--traffic 50 --garbage 0.2", {}),
    "silent": ("valve", "--silent 5", {5: "silent"}),
    "mute": ("valve", "--mute 5", {5: "silent"}),
    "silent among others": ("crane", "--silent 31", {31: "silent"}),
    "late boot-up": ("valve", "--late 5:3", {}),
    "too late boot-up": ("valve", "--late 5:6", {5: "silent"}),
    "late boot-up that is awaited for longer": ("valve", "--late 5:6", {}, 0, ["--boot-limit", "8"]),
    "late boot-up that is awaited for less": ("valve", "--late 5:3", {5: "silent"}, 3, ["--boot-limit", "2"]),
    "slow answers": ("crane", "--slow 22:0.4", {}),
    "abort": ("valve", "--abort 5:1800:1:06090030", {5: "aborted 1800 01 06090030"}),
    "abort among others": ("crane", "--abort 12:1017:0:08000022", {12: "aborted 1017 00 08000022"}),
    "abort, as a document": ("valve", "--abort 5:1800:1:06090030", {5: "aborted 1800 01 06090030"}, 3, ["--json"]),
    "confirms another sub": ("valve", "--wrong 5:1800:1", {5: "aborted 1800 01 05040001"}),
    "second boot-up": ("valve", "--reboot 5:2", {}),
    "second boot-up among others": ("crane", "--reboot 13:3 22:1", {}),
    "another rate": ("valve", "--rate 250", {5: "silent"}),
    "lines cut": ("valve", "--noise 1", {5: "silent"}),
    "runs already, taken over": ("valve", "--running 5", {}, 0, ["--take-over"]),
    "node numbers swapped": ("crane", "--swap 21:31", {21: "other 1000 00 00020194", 31: "other 1000 00 00020196"}),
    "swapped, not asked": ("crane", "--swap 31:43", {31: "aborted 1017 00 06020000", 43: "differs 1A00 01 91300120"}, 3, ["--no-identity"]),
    "another product": ("conveyor", "--identity 13:1018:2:191", {13: "other 1018 02 00000191"}),
    "another product, taken over, byte by byte": ("conveyor", "--identity 13:1018:2:191 --chunk 1", {13: "other 1018 02 00000191"}, 3, ["--take-over"]),
    "another product, not asked": ("conveyor", "--identity 13:1018:2:191", {}, 0, ["--no-identity"]),
    "another product, as a document": ("conveyor", "--identity 13:1018:2:191", {13: "other 1018 02 00000191"}, 3, ["--json"]),
    "all ready, as a document": ("crane", "", {}, 0, ["--json"]),
    "another product among silent and aborting ones": (
        "conveyor", "--identity 13:1018:2:3217 --silent 12 --unread 14:1018:2:06090011",
        {12: "silent", 13: "other 1018 02 00003217", 14: "aborted 1018 02 06090011"}),
    "no identity in a device": ("conveyor", "--unread 12:1018:2:06090011 14:1000:0:08000022 14:1018:2:06020000", {}),
    "slow to say who it is": ("conveyor", "--slow-read 12:0.8", {}),
    "too slow to say who it is and what it has": ("conveyor", "--slow-read 12:1.5", {12: "silent"}),
    "stores nothing": ("valve", "--stores-nothing 5", {5: "differs 1800 01 40000185"}),
    "stores nothing among others": ("crane", "--stores-nothing 22", {22: "differs 1801 01 40000296"}),
    "an old confirmation": ("conveyor", "--lost 13:1017:0", {13: "differs 1017 00 00000000"}),
    "an old confirmation, as a document": ("conveyor", "--lost 13:1017:0", {13: "differs 1017 00 00000000"}, 3, ["--json"]),
    "boots up while it is read back": ("valve", "--reboot-at-read 5:1", {5: "restarting"}),
    "boots up once it was read back in part": ("crane", "--reboot-at-read 13:2", {13: "restarting"}),
    "does not tell what it has": ("crane", "--unread 12:1017:0:08000022", {12: "aborted 1017 00 08000022"}),
    "lines with CR LF, stamps of eight digits": ("valve", "--line-feeds --long-stamps", {}),
    "flags that tell of no errors": ("valve", "--flags 5B", {}),
    "an adapter that cannot listen only": ("valve", "--refuse L", {}),
    "an adapter that cannot listen only and answers nothing": ("valve", "--refuse L --answers none", {}),
    "drives, with a table of settings": ("drives", "", {}),
    "a value of the table of settings is aborted": ("drives", "--abort 12:6060:0:06090030", {12: "aborted 6060 00 06090030"}),
    "a value of the table of settings is lost": ("drives", "--lost 13:6060:0", {13: "differs 6060 00 00000008"}),
    "has stored another identifier": ("valve", "--has 5:1800:1:40000191", {}),
    "has stored another identifier, and does not tell it": (
        "valve", "--has 5:1800:1:40000191 --unread 5:1800:1:08000022", {5: "aborted 1800 01 08000022"}),
    "has stored other identifiers, also of a PDO that is not used": ("crane", "--has 12:1801:1:4000028D 12:1800:1:4000019F", {}),
}

# What keeps a boot back before a frame is sent: the example, the words of the rig and of the program, what is said, and the commands that the adapter is given.
HEARD = ["C", "S6", "L", "C"]

LEFT_ALONE = {
    "runs, by a heartbeat": ("valve", "--running 5", [], "refused 100 5", HEARD),
    "runs, by SYNC": ("valve", "--sends 080", [], "refused 100 0", HEARD),
    "runs, by a PDO of the plan": ("valve", "--sends 181", [], "refused 100 5", HEARD),
    "runs, by a PDO of another identifier": ("valve", "--sends 1C3", [], "refused 100 0", HEARD),
    "runs, by lines with CR LF": ("valve", "--running 5 --line-feeds", [], "refused 100 5", HEARD),
    "runs, by lines with stamps of eight digits": ("valve", "--running 5 --long-stamps", [], "refused 100 5", HEARD),
    "runs, and the adapter cannot listen only": ("valve", "--running 5 --refuse L", [], "refused 100 5", ["C", "S6", "L", "O", "C"]),
    "runs, and the adapter cannot listen only and answers nothing": (
        "valve", "--running 5 --refuse L --answers none", [], "refused 100 5", ["C", "S6", "L", "F", "C", "S6", "O", "C"]),
    "lines that are no frames": ("valve", "--running 5 --garbled", [], "refused 103 ", HEARD),
    "lines that are no frames, of PDOs": ("valve", "--sends 1C3 --garbled --chunk 5", [], "refused 103 ", HEARD),
    "errors on the bus": ("valve", "--flags 80", [], "refused 102 0", ["C", "S6", "L", "F", "C"]),
    "errors on the bus, and the adapter cannot listen only": ("valve", "--flags A4 --refuse L --chunk 1", [], "refused 102 0", ["C", "S6", "L", "O", "F", "C"]),
    "runs, and has had errors": ("valve", "--running 5 --flags A4", [], "refused 100 5", HEARD),
    "the rate is refused": ("valve", "--refuse S", [], "refused 104 0", ["C", "S6", "C"]),
    "the rate is refused, taken over": ("valve", "--refuse S", ["--take-over"], "refused 104 0", ["C", "S6", "C"]),
    "to be opened is refused": ("valve", "--refuse O", [], "refused 104 0", ["C", "S6", "L", "F", "C", "S6", "O", "C"]),
    "to be opened is refused, taken over": ("valve", "--refuse O", ["--take-over"], "refused 104 0", ["C", "S6", "O", "C"]),
    "to listen and to be opened is refused": ("valve", "--refuse LO", [], "refused 104 0", ["C", "S6", "L", "O", "C"]),
}

# What is heard beside a boot that ends well: the example, the words of the rig, and what is said of it.
TOLD = {
    "a device tells an error": ("valve", "--error 5:8130:11", ["node 5 told an error by EMCY: code 8130h (a heartbeat or a life guarding stayed away), error register 11h"]),
    "devices tell errors": (
        "conveyor", "--error 11:4210:09 13:FF01:81",
        ["node 11 told an error by EMCY: code 4210h (temperature), error register 09h", "node 13 told an error by EMCY: code FF01h (of the device's own kind), error register 81h"]),
    "an error that is gone": ("valve", "--error 5:0000:00", []),
    "another manager": ("valve", "--foreign 0200", ["another manager is on the bus: the NMT command 02h 00h was heard, which was not sent here"]),
    "another manager resets too": ("valve", "--foreign 8200", []),
    "frames that are given back": ("valve", "--echo", []),
}

# The communication is reset before the devices are asked which COB-IDs they have, and again by the manager.
RESET = ["8200", "8200"]

# How far a boot reaches: the example, the words of the rig and of the program, the lines, the status, the NMT commands, and the devices that
# have then what their DCF files say.
CONVEYOR = [1, 11, 12, 13, 14]


def lines(form, nodes):
    return "".join(form.format(node) for node in nodes)


READY = lines("node {} ready\n", CONVEYOR)

# The other cases are not watched unless they say so, since that would take the time of a heartbeat in each.
BY_ITSELF = []

REACHES = {
    "one node alone": ("crane", "--running 13", ["--only", "12"], "node 12 ready\nstarted\n", 0, ["820c", "820c", "010c"], [12]),
    "one node alone that runs": ("crane", "--running 12", ["--only", "12"], "", 3, [], []),
    "one node alone that no row has": ("valve", "--until 3", ["--only", "9"], "", 3, [], []),
    "one node alone, not started": ("conveyor", "", ["--only", "11", "--no-start"], "node 11 ready\nnot started\n", 0, ["820b", "820b"], [11]),
    "not started": ("conveyor", "", ["--no-start"], READY + "not started\n", 0, RESET, CONVEYOR),
    "not started, since one is silent": ("valve", "--silent 5", ["--no-start"], "node 5 silent\nnot started\n", 3, RESET, []),
    "watched by itself": ("conveyor", "", BY_ITSELF, READY + "started\n" + lines("node {} operational\n", CONVEYOR), 0, RESET + ["0100"], CONVEYOR),
    "watched by itself, and one says nothing": (
        "conveyor", "--quiet 13", BY_ITSELF,
        READY + "started\n" + lines("node {} operational\n", [1, 11, 12]) + "node 13 late\nnode 14 operational\n", 3, RESET + ["0100"], CONVEYOR),
    "watched": ("conveyor", "", ["--watch", "2"], READY + "started\n" + lines("node {} operational\n", CONVEYOR), 0, RESET + ["0100"], CONVEYOR),
    "watched, and one says nothing": (
        "conveyor", "--quiet 13", ["--watch", "2"],
        READY + "started\n" + lines("node {} operational\n", [1, 11, 12]) + "node 13 late\nnode 14 operational\n", 3, RESET + ["0100"], CONVEYOR),
    "watched, as a document": ("valve", "--quiet 5", ["--watch", "1", "--json"], "node 5 ready\nstarted\nnode 5 late\n", 3, RESET + ["0100"], [5]),
    "given up": ("valve", "--silent 5 --until 6", ["--limit", "3"], "", 5, ["8200"], []),
    "given up in the boot": ("valve", "--silent 5 --until 12", ["--limit", "8"], "node 5 unfinished\n", 5, RESET, []),
    "given up in the boot, as a document": ("valve", "--silent 5 --until 12", ["--limit", "8", "--json"], "node 5 unfinished\n", 5, RESET, []),
    "pulled out": ("valve", "--gone 2", [], "", 5, ["8200"], []),
    "pulled out in the boot": ("valve", "--gone 4", [], "node 5 unfinished\n", 5, RESET, []),
    "pulled out while it is read back": ("valve", "--gone 7", [], "node 5 ready\n", 5, RESET, [5]),
    "pulled out while heartbeats are awaited": ("valve", "--gone 13", ["--watch", "20"], "node 5 ready\nstarted\n", 5, RESET + ["0100"], [5]),
    "stored": ("storing", "", ["--store"], "node 5 ready\nstarted\n", 0, RESET + ["0100"], [5]),
    "not stored": ("storing", "--abort 5:1010:1:08000020", ["--store"], "node 5 aborted 1010 01 08000020\nnot started\n", 3, RESET, [5]),
    "restored": ("storing", "--has 5:1800:2:1", ["--restore"], "node 5 ready\nstarted\n", 0, ["8100"] + RESET + ["0100"], [5]),
    "not restored without the word": ("storing", "--has 5:1800:2:1", [], "node 5 differs 1800 02 00000001\nnot started\n", 3, RESET, []),
    "refuses to be restored": ("storing", "--abort 5:1011:1:08000020", ["--restore"], "node 5 aborted 1011 01 08000020\nnot started\n", 3, [], []),
    "restored by none": ("conveyor", "", ["--restore"], READY + "started\n", 0, RESET + ["0100"], CONVEYOR),
    "stored by none": ("conveyor", "", ["--store"], READY + "started\n", 0, RESET + ["0100"], CONVEYOR),
}

# Examples whose devices are booted twice with what they stored; each of them can store its settings.
TWICE = {f"twice, {example}": example for example in ("valve", "conveyor", "crane", "drives", "second-range")}

# What is said of devices that are asked whether they are as planned: the example, the words of the rig, of the boot before it, if there is one, and
# of the question, the nodes that are not as planned or that are asked alone, and the status.
STARTED, LEFT = [], ["--no-start"]

VERIFIED = {
    "verified, and running": ("conveyor", "", STARTED, [], {}, 0),
    "verified, and running by heartbeats": ("crane", "", STARTED, [], {}, 0),
    "verified, and not started": ("conveyor", "", LEFT, [], {}, 0),
    "verified in parts, among garbage": ("valve", "--garbage 0.6 --traffic 20 --chunk 13", STARTED, [], {}, 0),
    "verified by an adapter that cannot listen only": ("valve", "--refuse L", STARTED, [], {}, 0),
    "verified gently": ("valve", "", STARTED, ["--gently", "40"], {}, 0),
    "verified, as a document": ("conveyor", "", STARTED, ["--json"], {}, 0),
    "verified, one node alone": ("conveyor", "--silent 11", LEFT, ["--only", "12"], {12: "as planned"}, 0),
    "verified, and one is silent": ("conveyor", "--silent 12", LEFT, [], {12: "silent"}, 3),
    "verified, and one is another device": ("conveyor", "--identity 13:1018:2:191", ["--no-identity"], [], {13: "other 1018 02 00000191"}, 3),
    "verified, and one has another mapping": ("crane", "--has 12:1A00:1:60000208", LEFT, [], {12: "differs 1A00 01 60000208"}, 3),
    "verified, and one lost a setting": ("conveyor", "--lost 13:1017:0", LEFT, [], {13: "differs 1017 00 00000000"}, 3),
    "verified, and one does not tell a value": ("crane", "--unread 12:1017:0:08000022", LEFT, [], {12: "aborted 1017 00 08000022"}, 3),
    "verified, and switched off otherwise": ("crane", "--has 12:1801:1:C000028D", STARTED, [], {}, 0),
    "verified, and never booted": ("valve", "", None, [], {5: "differs 1800 01 40000185"}, 3),
    "verified, and never booted, as a document": ("valve", "", None, ["--json"], {5: "differs 1800 01 40000185"}, 3),
    "verified, and nobody is there": ("valve", "--silent 5", None, [], {5: "silent"}, 3),
    "verified at lines that are no frames": ("valve", "--running 5 --garbled", None, [], "refused 103 ", 3),
    "verified at errors on the bus": ("valve", "--flags 80", None, [], "refused 102 0", 3),
    "verified by an adapter that refuses the rate": ("valve", "--refuse S", None, [], "refused 104 0", 3),
    "verified, one that no row has": ("valve", "--until 3", None, ["--only", "9"], "refused 101 9", 3),
}

# What makes of an EDS file that of a device that can store its settings, and go back to those that it left the factory with.
# NMT commands to the valve: the words of the rig and of the program, the commands on the bus, what is said, and the status.
COMMANDED = {
    "command: stops a node that runs": ("--running 5", ["stop", "5"], ["0205"], "sent stop to node 5\n", 0),
    "command: stops all, on a bus with traffic": ("--running 5 --traffic 50 --chunk 7", ["stop", "--all"], ["0200"], "sent stop to all nodes\n", 0),
    "command: starts a node": ("", ["start", "5"], ["0105"], "sent start to node 5\n", 0),
    "command: back to pre-operational": ("--running 5", ["preop", "5"], ["8005"], "sent preop to node 5\n", 0),
    "command: resets a node, over an adapter that cannot listen only": ("--refuse L", ["reset", "5"], ["8105"], "sent reset to node 5\n", 0),
    "command: resets the communication of all": ("--answers none", ["reset-communication", "--all"], ["8200"], "sent reset-communication to all nodes\n", 0),
    "command: another node than there is": ("", ["stop", "6"], ["0206"], "sent stop to node 6\n", 0),
    "command: lines that are no frames": ("--running 5 --garbled", ["stop", "5"], [], "refused 103 ", 3),
    "command: errors on the bus": ("--flags 80", ["stop", "5"], [], "refused 102 0", 3),
    "command: the rate is refused": ("--refuse S", ["stop", "5"], [], "refused 104 0", 3),
    "command: no node is named": ("", ["stop"], None, "<NODE>", 2),
    "command: a node and all": ("", ["stop", "5", "--all"], None, "cannot be used with", 2),
    "command: no number of a node": ("", ["stop", "128"], None, "1..=127", 2),
}

# Who is on a bus: the example, the words of the rig and of the program, what a node tells otherwise than its EDS file (None: nothing at all), and the
# status; in place of that what is refused.
SCANNED = {
    "scan: the conveyor": ("conveyor", "", ["--up-to", "14"], {}, 0),
    "scan: a machine that runs": ("conveyor", "--running 1 11 12 13 14 --traffic 20", ["--up-to", "14", "--gently", "20"], {}, 0),
    "scan: one that does not tell its product": ("conveyor", "--unread 12:1018:2:06090011 --chunk 5", ["--up-to", "13"], {12: {(0x1018, 2): None}}, 0),
    "scan: another device, as a document": ("conveyor", "--identity 13:1018:2:191", ["--up-to", "14", "--json"], {13: {(0x1018, 2): 0x191}}, 0),
    "scan: silent ones": ("conveyor", "--silent 11 --mute 13", ["--up-to", "14"], {11: None, 13: None}, 0),
    "scan: nobody": ("valve", "--silent 5", ["--up-to", "6"], {5: None}, 3),
    "scan: nobody, as a document": ("valve", "--silent 5", ["--up-to", "5", "--json"], {5: None}, 3),
    "scan: names whole and in segments": (
        "conveyor", f"--name 1:A 11:FOUR 12:FIVES 13:{'N' * 40}", ["--up-to", "13"], {1: {NAME: b"A"}, 11: {NAME: b"FOUR"}, 12: {NAME: b"FIVES"}, 13: {NAME: b"N" * 40}}, 0),
    "scan: names, as a document": ("conveyor", "--name 11:FOUR 12:FIVES", ["--up-to", "12", "--json"], {11: {NAME: b"FOUR"}, 12: {NAME: b"FIVES"}}, 0),
    "scan: names that are not shown whole": (
        "conveyor", f"--name 1:a\"b\\c\u00e9~ 12:{'L' * 200} --holds 11:1008:0:40 --chunk 7", ["--up-to", "12", "--gently", "5"],
        {1: {NAME: b"a\"b\\c\xe9~"}, 11: {NAME: bytes(7 * i % 251 for i in range(40))}, 12: {NAME: b"L" * 200}}, 0),
    "scan: one that tells no name": ("conveyor", "--unread 11:1008:0:06020000", ["--up-to", "12"], {11: {NAME: None}}, 0),
    "scan: one that falls silent amid its name": ("conveyor", f"--name 11:{'N' * 40} --hushed 11:3", ["--up-to", "12"], {11: {NAME: None}}, 0),
    "scan: one that falls silent amid its name, as a document": (
        "conveyor", f"--name 11:{'N' * 40} --hushed 11:3", ["--up-to", "12", "--json"], {11: {NAME: None}}, 0),
    "scan: pulled out as names are read": ("conveyor", "--gone 6", ["--up-to", "1"], {1: {NAME: None}}, 5),
    "scan: pulled out as names are read, as a document": ("conveyor", "--gone 6", ["--up-to", "1", "--json"], {1: {NAME: None}}, 5),
    "scan: lines that are no frames": ("valve", "--running 5 --garbled", ["--up-to", "5"], "refused 103 ", 3),
    "scan: errors on the bus": ("valve", "--flags 80", ["--up-to", "5"], "refused 102 0", 3),
    "scan: the rate is refused": ("valve", "--refuse S", [], "refused 104 0", 3),
}

# Values of one node that are read or written: the example, the words of the rig (none where nothing is opened), those of the program, what it says (as a
# document if --json is among them), the status, and what the device has then that its EDS file has not.
def moved(command, node, index, sub, **told):
    """The document of a value that was read or written, or of an end without it."""
    nothing = dict.fromkeys(("bytes", "value", "code", "words"))
    return {"command": command, "node": node, "index": index, "sub": sub, "end": "done", **nothing, **told}


def held(count):
    """The bytes that a rig puts into an object of so many, in hexadecimal digits."""
    return bytes(7 * i % 251 for i in range(count)).hex().upper()


LONG = "5A" * 889

TRANSFERRED = {
    "read: a number by its type": ("valve", "", ["read", "--type", "UNSIGNED32", "5", "1800", "1"], "node 5 has 1800 01 1073742213\n", 0, {}),
    "read: a number by the EDS file": ("valve", "--chunk 1", ["read", "--eds", "EXAMPLE/unit.eds", "5", "1800h", "01"], "node 5 has 1800 01 1073742213\n", 0, {}),
    "read: bytes, if no type is known": ("valve", "--stamps --lower", ["read", "5", "0x1800", "1"], "node 5 has 1800 01 85010040\n", 0, {}),
    "read: a text in segments": ("conveyor", "", ["read", "--eds", "EXAMPLE/io.eds", "12", "1008", "0"], "node 12 has 1008 00 IO-3216\n", 0, {}),
    "read: 889 bytes": ("valve", "--holds 5:3000:0:889", ["read", "5", "3000", "0"], f"node 5 has 3000 00 {held(889)}\n", 0, {}),
    "read: 889 bytes, beside a machine that runs": ("valve", "--running 5 --sends 181 080 --holds 5:3000:0:889", ["read", "5", "3000", "0"], f"node 5 has 3000 00 {held(889)}\n", 0, {}),
    "read: nothing, which is a value too": ("valve", "--holds 5:3000:0:0", ["read", "5", "3000", "0"], "node 5 has 3000 00 \n", 0, {}),
    "read: seven bytes": ("valve", "--holds 5:3000:0:7", ["read", "5", "3000", "0"], f"node 5 has 3000 00 {held(7)}\n", 0, {}),
    "read: no such object": ("valve", "", ["read", "5", "3000", "0"], "node 5 aborted 3000 00 06020000\n", 3, {}),
    "read: no such sub": ("valve", "", ["read", "5", "1800", "7F"], "node 5 aborted 1800 7F 06090011\n", 3, {}),
    "read: a node that is silent": ("valve", "--silent 5", ["read", "5", "1000", "0"], "node 5 silent\n", 3, {}),
    "read: slow answers": ("valve", "--slow 5:0.7 --holds 5:3000:0:20", ["read", "5", "3000", "0"], f"node 5 has 3000 00 {held(20)}\n", 0, {}),
    "read: too slow answers": ("valve", "--slow 5:1.5", ["read", "5", "1000", "0"], "node 5 silent\n", 3, {}),
    "read: the toggle bit does not alternate": ("valve", "--holds 5:3000:0:889 --bad-toggle 5:3", ["read", "5", "3000", "0"], "node 5 aborted 3000 00 05030000\n", 3, {}),
    "read: no answer to a segment": ("valve", "--holds 5:3000:0:889 --hushed 5:5", ["read", "5", "3000", "0"], "node 5 silent\n", 3, {}),
    "read: lines that are no frames": ("valve", "--running 5 --garbled", ["read", "5", "1000", "0"], "refused 103 ", 3, {}),
    "read: errors on the bus": ("valve", "--flags 80", ["read", "5", "1000", "0"], "refused 102 0", 3, {}),
    "read: the rate is refused": ("valve", "--refuse S", ["read", "5", "1000", "0"], "refused 104 0", 3, {}),
    "read: no index": ("valve", None, ["read", "5", "10000", "0"], "INDEX and SUB are hexadecimal digits", 2, {}),
    "read: an object that the EDS file has not": ("valve", None, ["read", "--eds", "EXAMPLE/unit.eds", "5", "3000", "0"], "describes no object 3000 00", 2, {}),
    "write: a number by its type": ("valve", "", ["write", "--type", "UNSIGNED16", "5", "1017", "0", "250"], "node 5 took 1017 00 250\n", 0, {"1017:00": "FA"}),
    "write: a number by the EDS file, among others that run": (
        "conveyor", "--running 11 12 13 14", ["write", "--eds", "EXAMPLE/io.eds", "12", "1017", "0", "0x1F4"], "node 12 took 1017 00 500\n", 0, {"1017:00": "1F4"}),
    "write: 889 bytes": ("valve", "--holds 5:3000:0:1", ["write", "--type", "DOMAIN", "5", "3000", "0", LONG], f"node 5 took 3000 00 {LONG}\n", 0, {"3000:00": LONG}),
    "write: five bytes, byte by byte": ("valve", "--holds 5:3000:0:1 --chunk 1", ["write", "--type", "OCTET_STRING", "5", "3000", "0", "0102030405"], "node 5 took 3000 00 0102030405\n", 0, {"3000:00": "0102030405"}),
    "write: a number below 0": ("valve", "--holds 5:3000:0:1", ["write", "--type", "INTEGER16", "5", "3000", "0", "-3"], "node 5 took 3000 00 -3\n", 0, {"3000:00": "FDFF"}),
    "write: a text": ("valve", "--holds 5:3000:0:1", ["write", "--type", "VISIBLE_STRING", "5", "3000", "0", "pump house 7"], "node 5 took 3000 00 pump house 7\n", 0, {"3000:00": b"pump house 7".hex().upper()}),
    "write: no bytes": ("valve", "--holds 5:3000:0:3", ["write", "--type", "DOMAIN", "5", "3000", "0", ""], "node 5 took 3000 00 \n", 0, {"3000:00": ""}),
    "write: read only": ("valve", "", ["write", "--type", "UNSIGNED32", "5", "1000", "0", "1"], "node 5 aborted 1000 00 06010002\n", 3, {}),
    "write: another width": ("valve", "", ["write", "--type", "UNSIGNED32", "5", "1017", "0", "1"], "node 5 aborted 1017 00 06070010\n", 3, {}),
    "write: confirms another sub": ("valve", "--wrong 5:1017:0", ["write", "--type", "UNSIGNED16", "5", "1017", "0", "250"], "node 5 aborted 1017 00 05040001\n", 3, {"1017:00": "FA"}),
    "write: refused at the end of the segments": ("valve", "--abort 5:3000:0:08000022 --holds 5:3000:0:1", ["write", "--type", "DOMAIN", "5", "3000", "0", LONG], "node 5 aborted 3000 00 08000022\n", 3, {}),
    "write: slow to store": ("valve", "--slow 5:3", ["write", "--type", "UNSIGNED16", "5", "1017", "0", "250"], "node 5 took 1017 00 250\n", 0, {"1017:00": "FA"}),
    "write: no value of the type": ("valve", None, ["write", "--type", "UNSIGNED8", "5", "1017", "0", "256"], "VALUE is no value of its type", 2, {}),
    "write: no type": ("valve", None, ["write", "5", "1017", "0", "256"], "--type", 2, {}),
    "read: a number, as a document": (
        "valve", "", ["read", "--json", "--type", "UNSIGNED32", "5", "1800", "1"], moved("read", 5, 0x1800, 1, bytes="85010040", value=0x40000185), 0, {}),
    "read: a number of 64 bits, as a document": (
        "valve", "--holds 5:3000:0:8", ["read", "--json", "--type", "UNSIGNED64", "5", "3000", "0"], moved("read", 5, 0x3000, 0, bytes=held(8), value=0x312A231C150E0700), 0, {}),
    "read: a text, as a document": (
        "conveyor", "", ["read", "--eds", "EXAMPLE/io.eds", "12", "1008", "0", "--json"], moved("read", 12, 0x1008, 0, bytes=b"IO-3216".hex().upper(), value="IO-3216"), 0, {}),
    "read: a text that cannot be printed, as a document": (
        "valve", "--holds 5:3000:0:7", ["read", "--json", "--type", "VISIBLE_STRING", "5", "3000", "0"], moved("read", 5, 0x3000, 0, bytes=held(7)), 0, {}),
    "read: a number of another width, as a document": (
        "valve", "--holds 5:3000:0:3", ["read", "--json", "--type", "UNSIGNED32", "5", "3000", "0"], moved("read", 5, 0x3000, 0, bytes=held(3)), 0, {}),
    "read: bytes, as a document": ("valve", "--holds 5:3000:0:889", ["read", "--json", "5", "3000", "0"], moved("read", 5, 0x3000, 0, bytes=held(889)), 0, {}),
    "read: nothing, as a document": ("valve", "--holds 5:3000:0:0", ["read", "--json", "5", "3000", "0"], moved("read", 5, 0x3000, 0, bytes=""), 0, {}),
    "read: no such sub, as a document": (
        "valve", "", ["read", "--json", "5", "1800", "7F"], moved("read", 5, 0x1800, 0x7F, end="refused", code=0x06090011, words="the object has no such sub: look whether the EDS file is that of this device"), 3, {}),
    "read: the toggle bit does not alternate, as a document": (
        "valve", "--holds 5:3000:0:889 --bad-toggle 5:3", ["read", "--json", "5", "3000", "0"],
        moved("read", 5, 0x3000, 0, end="given up", code=0x05030000, words="the toggle bit did not alternate"), 3, {}),
    "read: a node that is silent, as a document": ("valve", "--silent 5", ["read", "--json", "5", "1000", "0"], moved("read", 5, 0x1000, 0, end="silent"), 3, {}),
    "read: errors on the bus, as a document": ("valve", "--flags 80", ["read", "--json", "5", "1000", "0"], "refused 102 0", 3, {}),
    "read: no index, as a document": ("valve", None, ["read", "--json", "5", "10000", "0"], "INDEX and SUB are hexadecimal digits", 2, {}),
    "write: a number, as a document": (
        "valve", "", ["write", "--json", "--type", "UNSIGNED16", "5", "1017", "0", "250"], moved("write", 5, 0x1017, 0, bytes="FA00", value=250), 0, {"1017:00": "FA"}),
    "write: the least number, as a document": (
        "valve", "--holds 5:3000:0:1", ["write", "--json", "--type", "INTEGER64", "5", "3000", "0", "-9223372036854775808"],
        moved("write", 5, 0x3000, 0, bytes="0000000000000080", value=-2**63), 0, {"3000:00": "0000000000000080"}),
    "write: the greatest number, as a document": (
        "valve", "--holds 5:3000:0:1", ["write", "--type", "UNSIGNED64", "5", "3000", "0", "18446744073709551615", "--json"],
        moved("write", 5, 0x3000, 0, bytes=8 * "FF", value=2**64 - 1), 0, {"3000:00": 8 * "FF"}),
    "write: a real, as a document": (
        "valve", "--holds 5:3000:0:1", ["write", "--json", "--type", "REAL32", "5", "3000", "0", "0000803F"], moved("write", 5, 0x3000, 0, bytes="0000803F"), 0, {"3000:00": "0000803F"}),
    "write: read only, as a document": (
        "valve", "", ["write", "--json", "--type", "UNSIGNED32", "5", "1000", "0", "1"],
        moved("write", 5, 0x1000, 0, end="refused", code=0x06010002, words="the object is read only"), 3, {}),
    "write: confirms another sub, as a document": (
        "valve", "--wrong 5:1017:0", ["write", "--json", "--type", "UNSIGNED16", "5", "1017", "0", "250"],
        moved("write", 5, 0x1017, 0, end="given up", code=0x05040001, words="the command is not known, or the answer was to another setting"), 3, {"1017:00": "FA"}),
    "write: no value of the type, as a document": ("valve", None, ["write", "--json", "--type", "UNSIGNED8", "5", "1017", "0", "256"], "VALUE is no value of its type", 2, {}),
}

# The page of a boot: the example, the words of the rig, further words of the program, its status, and what has to stand on the page.
SHEETS = {
    "page: all ready": ("drives", "--error 12:4210:09", ["--title", "Gantry & saw", "--date", "2026-12-01"], 0, [
        "<title>Gantry &amp; saw</title>", "<h1>Gantry &amp; saw</h1>", "<dt>Rate</dt><dd>500 kbit/s</dd>", "<dt>Date</dt><dd>2026-12-01</dd>", "<dt>Took</dt><dd>", ">started<",
        "<td>X axis</td><td>drive.eds</td><td>type&nbsp;00020192h product&nbsp;00000040h </td><td>ready</td><td>–</td><td></td>",
        "<td>ready</td><td>–</td><td>4210h (temperature), error register 09h </td>", "it was asked for its own",
        "<h3>Y axis <small>node 12</small></h3>", "<li>6060h sub 0: 07h</li>", "<li>1800h sub 1: 40000185h</li>"]),
    "page: nobody is asked": ("valve", "", ["--no-identity"], 0, ["<h1>CANopen boot</h1>", "No device was asked for its own", ">started<"]),
    "page: one aborts": ("drives", "--abort 12:6060:0:06090030", [], 3, [">not started<", "<td>aborted 6060h sub 0: 06090030h</td>"]),
    "page: another device": ("conveyor", "--identity 13:1018:2:191", [], 3, [">not started<", "<td>other 1018h sub 2: 00000191h</td>"]),
    "page: the line fails": ("drives", "--gone 45", [], 5, [">not known to be started<", "<td>unfinished</td>"]),
    "page: no boot": ("valve", "--running 5", [], 3, None),
}

# Machines whose devices are asked while their PDOs come: the example, the words of the rig and of the question. By all that is on the bus meanwhile the
# machine keeps to its tables, the SDO frames too where a question comes as late behind the last one as the table has it.
RUNNING_PDOS = "--every 181:0.01:4 182:0.01:4 183:0.01:4 184:0.01:4 185:0.05:4 186:0.05:4 187:0.01:2 188:0.01:2 189:0.01:2 18A:0.01:2"
BESIDE = {
    "verified beside its PDOs": ("conveyor", RUNNING_PDOS, ["--only", "12", "--gently", "200"]),
}

# The errors in the document of a boot: the example, the words of the rig, and the errors by node.
IN_DOCUMENT = {
    "an error that a device tells, as a document": (
        "drives", "--error 12:4210:09", [{"node": 12, "code": 0x4210, "words": "temperature", "register": 9}]),
    "no error, as a document": ("valve", "", []),
}

SIGNED = "[{0}]\nObjectType=0x8\nSubNumber=2\n[{0}sub0]\nDataType=0x0005\nAccessType=ro\nDefaultValue=1\n[{0}sub1]\nDataType=0x0007\nAccessType=rw\n"
STORE = SIGNED.format("1010") + SIGNED.format("1011")


def that_stores(text):
    """An EDS text with 1010h and 1011h, if it does not have them already."""
    if "[1010]" in text:
        return text
    end = "\r\n" if "\r\n" in text else "\n"
    before, after = text.split("[OptionalObjects]", 1)
    count = int(re.search(r"SupportedObjects=(\d+)", after).group(1))
    after = re.sub(r"SupportedObjects=\d+", f"SupportedObjects={count + 2}", after, count=1)
    listed = re.sub(rf"(?m)^{count}=(0x[0-9A-Fa-f]+)", rf"{count}=\1{end}{count + 1}=0x1010{end}{count + 2}=0x1011", after, count=1)
    return f"{before}[OptionalObjects]{listed}{'' if listed.endswith(end) else end}{STORE.replace(chr(10), end)}"


def storing(example, folder):
    """An example's tables, with devices that can store their settings."""
    source = f"{HERE}/examples/{example}"
    for name in os.listdir(source):
        if name in ("nodes.csv", "pdos.csv", "setup.csv"):
            shutil.copy(f"{source}/{name}", folder)
        elif name.endswith(".eds"):
            with open(f"{source}/{name}", newline="") as it, open(f"{folder}/{name}", "w", newline="") as out:
                out.write(that_stores(it.read()))


def has_other(ends):
    """Whether some node is another device: then nothing is written to any."""
    return any(end.startswith("other ") for end in ends.values())


def wanted_text(example, ends):
    """The lines of a boot in which some nodes end in other ways."""
    with open(f"{HERE}/examples/{example}/boot.txt") as it:
        lines = it.read().splitlines()
    nodes = [line for line in lines if line.startswith("node ")]
    if has_other(ends):
        nodes = [line.replace(" ready", " as planned") for line in nodes]
    for at, line in enumerate(nodes):
        number = int(line.split()[1])
        if number in ends:
            nodes[at] = f"node {number} {ends[number]}"
    return "\n".join(nodes + ["not started" if ends else "started"]) + "\n"


def document_of(text):
    """A document in JSON that meets the schema."""
    value = json.loads(text)
    jsonschema.validate(value, SCHEMA)
    return value


def lines_of(document):
    """The lines that a document in JSON stands for."""
    value = json.loads(document)
    if "error" in value:
        return "".join(f"{line}\n" for line in value["error"]["words"] if line.startswith("node ") or line == "started")
    lines = [f"node {it['node']} {it['state']}" + (f" {it['index']:04X} {it['sub']:02X} {it.get('found', it.get('code')):08X}" if "index" in it else "")
             for it in value["nodes"]]
    beats = [f"node {it['node']} {it['state']}" for it in value["heartbeats"]]
    return "\n".join(lines + ["started" if value["started"] else "not started"] + beats) + "\n"


def opening_faults(seen, options):
    """Whether the adapter was opened to send though it was not listened for 2 s before, and not because it refuses to listen only."""
    since, refused = None, False
    for moment, command, is_taken in seen["given"]:
        if command == "L":
            since, refused = moment, not is_taken
        elif command == "O" and "--take-over" not in options and not refused and (since is None or moment - since < 2):
            return [f"the adapter is opened to send before it was listened: {seen['given']}"]
    return []


def told(name, folder):
    """What is wrong with what is said of a boot that ends well."""
    example, words, wanted = TOLD[name]
    it, seen = boot(example, words, [], folder)
    said = [line.removeprefix("canplan: ") for line in it.stderr.splitlines() if "EMCY" in line or "another manager" in line]
    faults = opening_faults(seen, [])
    if it.returncode or it.stdout != wanted_text(example, {}):
        faults.append(f"status {it.returncode}, says {it.stdout!r}")
    if said != wanted:
        faults.append(f"says {said}, not {wanted}")
    return faults + ([f"standard error: {it.stderr}"] if faults else [])


def errors_in_document(name, folder):
    """What is wrong with the errors that devices told, in the document of a boot, and with how long it says that it took."""
    example, words, wanted = IN_DOCUMENT[name]
    began = time.monotonic()
    it, _ = boot(example, words, ["--json"], folder)
    within = time.monotonic() - began
    value = document_of(it.stdout)
    faults = [] if it.returncode == 0 else [f"status {it.returncode}"]
    if value["emergencies"] != wanted:
        faults.append(f"tells the errors {value['emergencies']}, not {wanted}")
    if not 2_000_000 <= value["took"]["us"] <= within * 1_000_000:
        faults.append(f"took {value['took']}, and all took {within} s")
    return faults + ([f"standard error: {it.stderr}"] if faults else [])


def left_alone(name, folder):
    """What is wrong with a case in which no frame is to be sent."""
    example, words, options, said, given = LEFT_ALONE[name]
    it, seen = boot(example, words, options, folder)
    faults = opening_faults(seen, options)
    if it.returncode != 3 or it.stdout or f"canplan: {said}" not in it.stderr:
        faults.append(f"status {it.returncode}, says {it.stdout!r}")
    if [command for _, command, _ in seen["given"]] != given:
        faults.append(f"the adapter is given {seen['given']}, not {given}")
    if seen["frames_from_manager"]:
        faults.append(f"{seen['frames_from_manager']} frames are sent")
    return faults + ([f"standard error: {it.stderr}"] if faults else [])


def boot(example, words, options, folder):
    """What the program gives with a rig, and what the rig reports."""
    tables = network_in(f"{HERE}/examples/{example}")
    port, report = f"{folder}/port", f"{folder}/report.json"
    rig = subprocess.Popen([sys.executable, RIG, tables[0], port, "--expect", os.path.dirname(tables[0]), "--log", f"{folder}/log",
                            "--report", report, *words.split()], stdout=subprocess.PIPE, text=True)
    rig.stdout.readline()
    it = subprocess.run([PROGRAM, "boot", "--port", port, "--watch", "0", *options, *tables], capture_output=True, text=True, timeout=120)
    rig.wait(timeout=60)
    with open(report) as file:
        return it, json.load(file)


def run(name, folder):
    """What is wrong with a case."""
    example, words, ends, *more = CASES[name]
    status, options = more if more else (3 if ends else 0, [])
    it, seen = boot(example, words, options, folder)
    text = wanted_text(example, ends) if status in (0, 3) and "--running" not in words or status == 0 else ""
    commands = RESET + ["0100"] if status == 0 else [] if "--running" in words or "--rate" in words or has_other(ends) else RESET
    faults = opening_faults(seen, options)
    if it.returncode != status:
        faults.append(f"status {it.returncode}, not {status}")
    said = lines_of(it.stdout) if "--json" in options else it.stdout
    if said != text:
        faults.append(f"says {said!r}, not {text!r}")
    if seen["commands"] != commands:
        faults.append(f"NMT commands {seen['commands']}, not {commands}")
    if status == 0 and not seen["all_as_dcf"]:
        faults.append("a device has not what its DCF file says")
    written = sum(device["writes"] for device in seen["devices"].values())
    if has_other(ends) and written:
        faults.append(f"{written} settings are written though a device is another one")
    if has_other(ends) and "node numbers may be swapped" not in it.stderr:
        faults.append(f"does not say what may be behind it: {it.stderr!r}")
    if "--running" in words and status == 3 and "refused 100 5" not in it.stderr:
        faults.append(f"does not name the node that runs: {it.stderr!r}")
    return faults + ([f"standard error: {it.stderr}"] if faults else [])


def reach(name, folder):
    """What is wrong with a case of how far a boot reaches."""
    example, words, options, text, status, commands, set_up = REACHES[name]
    if example == "storing":
        storing("valve", folder)
    tables = network_in(folder if example == "storing" else f"{HERE}/examples/{example}")
    expected = f"{HERE}/examples/{'valve' if example == 'storing' else example}"
    port, report = f"{folder}/port", f"{folder}/report.json"
    rig = subprocess.Popen([sys.executable, RIG, tables[0], port, "--expect", expected, "--log", f"{folder}/log", "--report", report, *words.split()],
                           stdout=subprocess.PIPE, text=True)
    rig.stdout.readline()
    unwatched = [] if options is BY_ITSELF or "--watch" in options else ["--watch", "0"]
    it = subprocess.run([PROGRAM, "boot", "--port", port, *unwatched, *options, *tables], capture_output=True, text=True, timeout=120)
    rig.wait(timeout=60)
    with open(report) as file:
        seen = json.load(file)
    faults = opening_faults(seen, options)
    said = lines_of(it.stdout) if "--json" in options else it.stdout
    if (said, it.returncode) != (text, status):
        faults.append(f"says {said!r} with status {it.returncode}, not {text!r} with {status}")
    if seen["commands"] != commands:
        faults.append(f"NMT commands {seen['commands']}, not {commands}")
    if "--limit" in options and [command for _, command, _ in seen["given"]][-1:] != ["C"]:
        faults.append(f"the adapter is left open: {seen['given']}")
    for node in set_up:
        device = seen["devices"][str(node)]
        if not device["as_dcf"]:
            faults.append(f"node {node}: {device['wrong']}")
    written = {int(node): device["writes"] for node, device in seen["devices"].items() if device["writes"]}
    if "--only" in options and any(node not in set_up for node in written):
        faults.append(f"other nodes are written to: {written}")
    if name == "stored" and not seen["devices"]["5"]["stored_as_dcf"]:
        faults.append("what is stored is not what the DCF file says")
    return faults + ([f"standard error: {it.stderr}"] if faults else [])


def twice(name, folder):
    """What is wrong with the second boot of devices that have stored what the first one set."""
    example = TWICE[name]
    storing(example, folder)
    tables = network_in(folder)
    port, report = f"{folder}/port", f"{folder}/report.json"
    rig = subprocess.Popen([sys.executable, RIG, tables[0], port, "--expect", f"{HERE}/examples/{example}", "--sessions", "2", "--log", f"{folder}/log", "--report", report],
                           stdout=subprocess.PIPE, text=True)
    rig.stdout.readline()
    faults = []
    for time in ("first", "second"):
        it = subprocess.run([PROGRAM, "boot", "--port", port, "--store", "--take-over", "--watch", "0", *tables], capture_output=True, text=True, timeout=120)
        lines = it.stdout.splitlines()
        if it.returncode or lines[-1:] != ["started"] or not all(line.endswith(" ready") for line in lines[:-1]):
            faults.append(f"the {time} boot says {it.stdout!r} with status {it.returncode}: {it.stderr}")
    rig.wait(timeout=60)
    with open(report) as file:
        seen = json.load(file)
    if seen["commands"] != 2 * (RESET + ["0100"]):
        faults.append(f"NMT commands {seen['commands']}")
    if not seen["all_as_dcf"]:
        faults.append("a device has not what its DCF file says")
    faults += [f"node {node} has not stored what its DCF file says" for node, device in seen["devices"].items() if not device["stored_as_dcf"]]
    return faults


def requests_in(log, from_first=False):
    """The frames that were sent since the adapter was opened the last time, or the first, each with its moment."""
    with open(log) as file:
        lines = [line.split() for line in file]
    opened = [0] if from_first else [at for at, line in enumerate(lines) if line[1:4] == ["adapter:", "open", "at"]]
    return [(float(line[0]), line[2], line[3:]) for line in lines[opened[-1] if opened else 0:] if line[1] == "->"]


def asking_faults(requests, nodes, options):
    """Whether something else than the requests of uploads was sent, or to others than these nodes, or too soon."""
    wanted = {f"{0x600 + node:03X}" for node in nodes}
    faults = [f"sends {ident} {' '.join(data)}" for _, ident, data in requests if ident not in wanted or len(data) != 8 or data[0] != "40"]
    pause = int(options[options.index("--gently") + 1]) / 1000 if "--gently" in options else 0
    soon = [later[0] - first[0] for first, later in zip(requests, requests[1:]) if later[0] - first[0] < pause - 0.005]
    return faults + ([f"asks again after {min(soon)} s"] if soon else [])


def verified_lines(nodes, ends):
    return "".join(f"node {node} {ends.get(node, 'as planned')}\n" for node in nodes)


def said_by(it, options):
    """The lines of an answer, also where it is a document."""
    if "--json" not in options:
        return it.stdout
    value = json.loads(it.stdout)
    if value.get("as_planned") != all(node["state"] == "as planned" for node in value["nodes"]):
        return f"as_planned is {value.get('as_planned')} in {it.stdout}"
    return lines_of(json.dumps({**value, "heartbeats": [], "started": True})).removesuffix("started\n")


def verified(name, folder):
    """What is wrong with a case in which the devices are asked whether they are as planned."""
    example, words, before, options, ends, status = VERIFIED[name]
    tables = network_in(f"{HERE}/examples/{example}")
    port, report, log = f"{folder}/port", f"{folder}/report.json", f"{folder}/log"
    rig = subprocess.Popen([sys.executable, RIG, tables[0], port, "--expect", os.path.dirname(tables[0]), "--log", log, "--report", report,
                            "--sessions", "1" if before is None else "2", *words.split()], stdout=subprocess.PIPE, text=True)
    rig.stdout.readline()
    if before is not None:
        subprocess.run([PROGRAM, "boot", "--port", port, "--watch", "0", *before, *tables], capture_output=True, text=True, timeout=120)
    it = subprocess.run([PROGRAM, "verify", "--port", port, *options, *tables], capture_output=True, text=True, timeout=120)
    rig.wait(timeout=60)
    with open(report) as file:
        seen = json.load(file)
    nodes = [int(node) for node in seen["devices"]]
    if "--only" in options:
        nodes = [int(options[options.index("--only") + 1])]
    is_refused = isinstance(ends, str)
    text = "" if is_refused else verified_lines(nodes, ends)
    faults = asking_faults([] if before is None and is_refused and not seen["frames_from_manager"] else requests_in(log), nodes, options)
    said = it.stdout if is_refused else said_by(it, options)
    if (said, it.returncode) != (text, status) or is_refused and f"canplan: {ends}" not in it.stderr:
        faults.append(f"says {said!r} with status {it.returncode}, not {text!r} with {status}")
    if is_refused and seen["frames_from_manager"]:
        faults.append(f"{seen['frames_from_manager']} frames are sent")
    if before is None and (seen["commands"] or any(device["writes"] or device["resets"] for device in seen["devices"].values())):
        faults.append("a device is written to, or reset")
    if seen["given"][-1:] and seen["given"][-1][1] != "C":
        faults.append(f"the adapter is left open: {seen['given']}")
    return faults + ([f"standard error: {it.stderr}"] if faults else [])


def log_of(log):
    """The frames since the adapter was opened the last time, as candump writes them."""
    with open(log) as file:
        lines = [line.split() for line in file]
    opened = [at for at, line in enumerate(lines) if line[1:3] == ["adapter:", "open"]]
    frames = [line for line in lines[opened[-1]:] if line[1] in ("->", "<-")]
    return "".join(f"({float(moment):.6f}) can0 {ident}#{''.join(data).upper()}\n" for moment, _, ident, *data in frames)


def beside_its_pdos(name, folder):
    """What is wrong with a machine that is asked while its PDOs come: whether it keeps to its tables meanwhile."""
    example, words, options = BESIDE[name]
    tables = network_in(f"{HERE}/examples/{example}")
    port, log = f"{folder}/port", f"{folder}/log"
    rig = subprocess.Popen([sys.executable, RIG, tables[0], port, "--log", log, "--report", f"{folder}/report.json", "--sessions", "2", *words.split()],
                           stdout=subprocess.PIPE, text=True)
    rig.stdout.readline()
    subprocess.run([PROGRAM, "boot", "--port", port, "--watch", "0", "--take-over", *tables], capture_output=True, text=True, timeout=120)
    it = subprocess.run([PROGRAM, "verify", "--port", port, *options, *tables], capture_output=True, text=True, timeout=120)
    rig.wait(timeout=60)
    node = options[options.index("--only") + 1]
    faults = [] if (it.stdout, it.returncode) == (f"node {node} as planned\n", 0) else [f"says {it.stdout!r} with status {it.returncode}: {it.stderr}"]
    frames = log_of(log)
    watched = subprocess.run([PROGRAM, "watch", "--error", "5000", *tables, "-"], input=frames, capture_output=True, text=True, timeout=60)
    if watched.returncode or frames.count(" 182#") < 100 or frames.count(" 60C#") < 10:
        faults.append(f"{frames.count(chr(10))} frames: {watched.stdout[-600:]}")
    return faults


def rate_of(example):
    """The rate of an example's plan, in kbit/s."""
    return "250" if example == "conveyor" else "500"


def at_rig(example, words, call, folder):
    """Runs a call at the port of a rig with some words: how the call ended, and what the rig saw."""
    report = f"{folder}/report.json"
    rig = subprocess.Popen([sys.executable, RIG, f"{HERE}/examples/{example}/nodes.csv", f"{folder}/port", "--log", f"{folder}/log", "--report", report, *words.split()],
                           stdout=subprocess.PIPE, text=True)
    rig.stdout.readline()
    it = subprocess.run(call, capture_output=True, text=True, timeout=120)
    rig.wait(timeout=60)
    with open(report) as file:
        return it, json.load(file)


def commanded(name, folder):
    """What is wrong with a case in which an NMT command is sent."""
    words, options, commands, said, status = COMMANDED[name]
    call = [PROGRAM, "nmt", "--port", f"{folder}/port", "--rate", "500", *options]
    if commands is None:
        it = subprocess.run(call, capture_output=True, text=True, timeout=120)
        return [] if it.returncode == status and not it.stdout and said in it.stderr else [f"status {it.returncode}, says {it.stdout!r} {it.stderr!r}"]
    it, seen = at_rig("valve", words, call, folder)
    faults = []
    is_as_wanted = it.stdout == said if status == 0 else not it.stdout and f"canplan: {said}" in it.stderr
    if it.returncode != status or not is_as_wanted:
        faults.append(f"status {it.returncode}, says {it.stdout!r}")
    if seen["commands"] != commands or seen["frames_from_manager"] != len(commands):
        faults.append(f"NMT commands {seen['commands']}, frames {seen['frames_from_manager']}")
    if seen["given"][-1:] and seen["given"][-1][1] != "C":
        faults.append(f"the adapter is left open: {seen['given']}")
    return faults + ([f"standard error: {it.stderr}"] if faults else [])


def scanned(name, folder):
    """What is wrong with a case in which the nodes are asked what their devices are."""
    example, words, options, ends, status = SCANNED[name]
    sessions = "" if isinstance(ends, str) or status == 3 else " --sessions 2"
    it, seen = at_rig(example, words + sessions, [PROGRAM, "scan", "--port", f"{folder}/port", "--rate", rate_of(example), *options], folder)
    if isinstance(ends, str):
        is_as_wanted = not it.stdout and f"canplan: {ends}" in it.stderr and not seen["frames_from_manager"]
        faults = []
    else:
        nodes = sorted(int(node) for node in seen["devices"])
        is_document = "--json" in options and status != 5
        said = it.stdout if "--json" not in options else document_of(it.stdout) if is_document else lines_of(it.stdout)
        is_as_wanted = said == scanned_text(f"{HERE}/examples/{example}", answering(nodes, ends, options), ends, is_document) and ("no node answered" in it.stderr) == (status == 3)
        requests = requests_in(f"{folder}/log", True)
        faults = asking_faults([it for it in requests if it[2][0] == "40"], range(1, int(options[1]) + 1), options)
        faults += naming_faults(requests, answering(nodes, ends, options)) if status != 5 else []
        faults += [] if ("--hushed" in words) == any(data[0] == "80" for _, _, data in requests) else ["a transfer is aborted, or not"]
    if it.returncode != status or not is_as_wanted:
        faults.append(f"status {it.returncode}, says {it.stdout!r}")
    if seen["commands"] or any(device["writes"] or device["resets"] for device in seen["devices"].values()):
        faults.append("a device is written to, or reset")
    if seen["given"][-1:] and seen["given"][-1][1] != "C" and status != 5:
        faults.append(f"the adapter is left open: {seen['given']}")
    return faults + ([f"standard error: {it.stderr}"] if faults else [])


def transfer_faults(requests, node, seen):
    """Whether something else than requests of one node was sent, or an abort or more behind the end."""
    wanted = f"{0x600 + node:03X}"
    faults = [f"sends {ident} {' '.join(data)}" for _, ident, data in requests if ident != wanted or len(data) != 8]
    others = [number for number, device in seen["devices"].items() if int(number) != node and (device["reads"] or device["writes"])]
    return faults + ([f"the nodes {others} were asked"] if others else [])


def is_said(it, options, said, is_fault):
    """Whether an answer is what is to be said, or a fault has it."""
    if "--json" not in options:
        return not it.stdout and said in it.stderr if is_fault else it.stdout == said
    value = document_of(it.stdout)
    if is_fault:
        return said in "\n".join([value["error"]["line"], *value["error"]["words"]]) and not it.stderr
    return value == said and not it.stderr


def transferred(name, folder):
    """What is wrong with a case in which a value of one node is read or written."""
    example, words, options, said, status, changed = TRANSFERRED[name]
    call = [PROGRAM, options[0], "--port", f"{folder}/port", "--rate", rate_of(example), "--explain", *options[1:]]
    call = [it.replace("EXAMPLE", f"{HERE}/examples/{example}") for it in call]
    if words is None:
        it = subprocess.run(call, capture_output=True, text=True, timeout=120)
        return [] if it.returncode == status and is_said(it, options, said, True) else [f"status {it.returncode}, says {it.stdout!r} {it.stderr!r}"]
    it, seen = at_rig(example, words, call, folder)
    is_refused = isinstance(said, str) and said.startswith("refused")
    is_as_wanted = is_said(it, options, f"canplan: {said}" if is_refused else said, is_refused) and not (is_refused and seen["frames_from_manager"])
    faults = [] if it.returncode == status and is_as_wanted else [f"status {it.returncode}, says {it.stdout!r}"]
    node = int(next(word for word in options[1:] if word.isdigit()))
    faults += transfer_faults(requests_in(f"{folder}/log"), node, seen)
    if seen["commands"] or any(device["resets"] for device in seen["devices"].values()):
        faults.append("a device is reset")
    if seen["devices"][str(node)]["changed"] != changed:
        faults.append(f"the device has {seen['devices'][str(node)]['changed']}")
    if seen["given"][-1:] and seen["given"][-1][1] != "C":
        faults.append(f"the adapter is left open: {seen['given']}")
    return faults + ([f"standard error: {it.stderr}"] if faults else [])


def sheet(name, folder):
    """What is wrong with the page of a boot."""
    example, words, options, status, parts = SHEETS[name]
    page = f"{folder}/page.html"
    it, _ = boot(example, words, ["--report", page, *options], folder)
    faults = [] if it.returncode == status else [f"status {it.returncode}, says {it.stdout!r}"]
    if parts is None:
        return faults + (["there is a page"] if os.path.exists(page) else [])
    if not os.path.exists(page):
        return faults + [f"there is no page: {it.stderr}"]
    with open(page, encoding="utf-8") as file:
        text = file.read()
    faults += [f"no {part!r} on the page" for part in parts if part not in text]
    if re.search(r"(?:src|href)=", text) or not text.endswith("</html>\n"):
        faults.append("the page is not whole, or loads something")
    return faults


def faults_of(name, folder):
    """What is wrong with a case."""
    for cases, tried in ((CASES, run), (LEFT_ALONE, left_alone), (TOLD, told), (REACHES, reach), (TWICE, twice), (VERIFIED, verified), (COMMANDED, commanded), (SCANNED, scanned), (TRANSFERRED, transferred), (SHEETS, sheet), (BESIDE, beside_its_pdos), (IN_DOCUMENT, errors_in_document)):
        if name in cases:
            try:
                return tried(name, folder)
            except jsonschema.ValidationError as fault:
                return [f"the document is not of the schema: {fault.message}"]
    return []


def main(words):
    passed, failed = 0, 0
    for name in [*CASES, *LEFT_ALONE, *TOLD, *REACHES, *TWICE, *VERIFIED, *COMMANDED, *SCANNED, *TRANSFERRED, *SHEETS, *BESIDE, *IN_DOCUMENT]:
        if words and not any(word in name for word in words):
            continue
        with tempfile.TemporaryDirectory() as folder:
            faults = faults_of(name, folder)
        print(f"{'FAILED' if faults else 'ok'}: {name}", flush=True)
        for fault in faults:
            print(f"  {fault}")
        passed, failed = passed + (not faults), failed + bool(faults)
    print(f"{passed} passed, {failed} failed")
    return 1 if failed else 0


if __name__ == "__main__":
    sys.exit(main(sys.argv[1:]))
