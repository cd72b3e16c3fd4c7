#!/usr/bin/env python3
"""Writes EDS files of the examples in the manner of makers, with the meaning that they have, and looks whether `canplan tidy` finds that meaning again.

    python3 tools/manners.py [COUNT [SEED]]

Of each text some manners are drawn: comments behind values, other spellings of numbers, words, names of sections and keys, lists with gaps, keys that CiA 301 makes needless,
other bytes and line ends. What `tidy` makes of it has to describe the same objects with the same types, accesses, flags, limits and values, the same lists and the same rates, by
a reader that shares nothing with canplan. A refusal is counted; more than one in twelve is a fault.
"""
import collections
import glob
import os
import random
import re
import subprocess
import sys
import tempfile

from files import bytes_of, status_of, write

HERE = os.path.dirname(os.path.dirname(os.path.realpath(__file__)))
PROGRAM = os.environ.get("CANPLAN", f"{HERE}/bin/canplan")
RATES = (10, 20, 50, 125, 250, 500, 800, 1000)
TYPES = {
    1: ("BOOLEAN", "bool", "Boolean"), 2: ("INTEGER8", "INT8", "S8", "Integer 8"), 3: ("INTEGER16", "INT16", "I16"), 4: ("INTEGER32", "int32"), 5: ("UNSIGNED8", "UINT8", "U8", "Unsigned 8"),
    6: ("UNSIGNED16", "UINT16", "Unsigned_16"), 7: ("UNSIGNED32", "uint32", "U32"), 8: ("REAL32",), 9: ("VISIBLE_STRING", "Visible String"), 15: ("DOMAIN", "domain"),
}
ACCESSES = {"ro": ("RO", "read only", "r", "ReadOnly"), "wo": ("w", "write_only"), "rw": ("RW", "read/write", "r/w", "Read Write"), "const": ("c", "cst", "constant", "CONST")}
FIXED_TYPES = {0x1000: 7, 0x1001: 5, 0x1002: 7, 0x1005: 7, 0x1006: 7, 0x1007: 7, 0x1014: 7, 0x1015: 6, 0x1017: 6}


# ---- the meaning of a text in the form of CiA 306

def sections_of(text):
    found, name = collections.OrderedDict(), None
    for line in re.split(r"\r?\n", text):
        if line.startswith("["):
            name = line[1:line.index("]")].strip().lower()
            found.setdefault(name, {})
        elif "=" in line and not line.lstrip().startswith(";") and name is not None:
            key, _, value = line.partition("=")
            found[name].setdefault(key.strip().lower(), value.strip())
    return found


def number(text):
    if re.fullmatch(r"-?0x[0-9a-f]+", text, re.I):
        return int(text, 16)
    if re.fullmatch(r"-?0[0-7]+", text):
        return int(text, 8)
    return int(text, 10)


def amount(text):
    """A number, or the node's and a number."""
    parts = [it.strip() for it in text.split("+")]
    node = sum(it.lower() == "$nodeid" for it in parts)
    return node, sum(number(it) for it in parts if it.lower() != "$nodeid")


def value_of(text, kind):
    if not text:
        return None
    if kind in (9, 10, 11, 15, 8, 17):
        return text
    node, rest = amount(text)
    bits = {1: 8, 2: 8, 3: 16, 4: 32, 5: 8, 6: 16, 7: 32}.get(kind, 64)
    return node, rest % (1 << bits)


def limit_of(text, kind):
    return None if not text or kind in (9, 10, 11, 15, 8, 17) else amount(text)


def listed_in(sections):
    for name in ("mandatoryobjects", "optionalobjects", "manufacturerobjects"):
        keys = sections.get(name, {})
        for place in range(number(keys.get("supportedobjects") or "0")):
            yield number(keys[str(place + 1)])


def object_of(keys):
    kind = number(keys.get("datatype") or "0")
    value = keys.get("parametervalue") or keys.get("defaultvalue", "")
    access = keys.get("accesstype", "").lower()
    is_mapped = bool(number(keys.get("pdomapping") or "0"))
    return kind, access, is_mapped, limit_of(keys.get("lowlimit", ""), kind), limit_of(keys.get("highlimit", ""), kind), value_of(value, kind)


def meaning_of(text):
    """Rates, listed indexes, and objects by index and sub."""
    sections = sections_of(text)
    info = sections.get("deviceinfo", {})
    rates = [rate for rate in RATES if number(info.get(f"baudrate_{rate}") or "0")]
    listed = sorted(set(listed_in(sections)))
    objects = {}
    for index in listed:
        main = sections[f"{index:04x}"]
        kind = number(main.get("objecttype") or "7")
        if kind in (8, 9):
            for name, keys in sections.items():
                it = re.fullmatch(rf"{index:04x}sub([0-9a-f]+)", name)
                if it:
                    objects[index, int(it[1], 16)] = object_of(keys)
        elif kind == 7:
            objects[index, 0] = object_of(main)
    return rates, listed, objects


def is_meant(out, text):
    """Whether what `tidy` made has the meaning of a text."""
    try:
        return meaning_of(out.decode("utf-8", "replace")) == meaning_of(text)
    except (ValueError, KeyError):
        return False


# ---- manners: each changes lines, and keeps the meaning

def value_lines(lines, *keys):
    return [at for at, line in enumerate(lines) if line.partition("=")[0].strip().lower() in keys and line.partition("=")[2].strip()]


def some(by, places):
    return by.sample(places, by.randint(1, len(places))) if places else []


NUMBERS = ("objecttype", "datatype", "subnumber", "pdomapping", "defaultvalue", "lowlimit", "highlimit", "supportedobjects")


def comments(lines, by):
    tail = by.choice([" ; default", " // as built", " # see manual", "\t; 5", " /* x */", " ;"])
    for at in some(by, value_lines(lines, *NUMBERS, "accesstype")):
        if not is_text(lines, at):
            lines[at] += tail


def section_at(lines, at):
    for back in range(at, -1, -1):
        if lines[back].startswith("["):
            return back
    return -1


def is_text(lines, at):
    """Whether a line is the value of an object that holds a text."""
    if lines[at].partition("=")[0].strip().lower() not in ("defaultvalue", "parametervalue", "lowlimit", "highlimit"):
        return False
    begin = section_at(lines, at)
    for line in lines[begin + 1:]:
        if line.startswith("["):
            break
        key, _, value = line.partition("=")
        if key.strip().lower() == "datatype":
            return value.strip().lower() not in ("0x0001", "0x0002", "0x0003", "0x0004", "0x0005", "0x0006", "0x0007", "0x1", "0x2", "0x3", "0x4", "0x5", "0x6", "0x7", "1", "2", "3", "4", "5", "6", "7")
    return False


def spelled(text, by):
    if re.fullmatch(r"0x[0-9A-Fa-f]+", text):
        digits = text[2:]
        return by.choice([f"{digits}h" if digits[0].isdigit() else f"0{digits}h", f"${digits}", f"16#{digits}", f"0X{digits}", f"0x {digits}", f"+0x{digits}", f"0x{digits}U", f"0x{digits}UL"])
    if re.fullmatch(r"[1-9][0-9]*", text):
        return by.choice([f"+{text}", f"{text}L", f"{text}.0", f"{text}.00", f"{text}u", hex(int(text))])
    return text


def numbers(lines, by):
    for at in some(by, value_lines(lines, *NUMBERS)):
        key, _, value = lines[at].partition("=")
        if not is_text(lines, at):
            lines[at] = f"{key}={spelled(value.strip(), by)}"


def nodes(lines, by):
    for at in some(by, value_lines(lines, "defaultvalue")):
        lines[at] = re.sub(r"\$NODEID", by.choice(["NODEID", "$NODE_ID", "$NODE-ID", "$nodeid", "(NODEID)", "{$NODEID}", "Node_ID", "%NODEID%"]).replace("\\", ""), lines[at], flags=re.I)


def types(lines, by):
    for at in some(by, value_lines(lines, "datatype")):
        key, _, value = lines[at].partition("=")
        if re.fullmatch(r"0x[0-9a-fA-F]+", value.strip()) and int(value, 16) in TYPES:
            lines[at] = f"{key}={by.choice(TYPES[int(value, 16)])}"


def object_types(lines, by):
    words = {7: ("VAR", "Variable", "var"), 8: ("ARRAY", "Array"), 9: ("RECORD", "record")}
    for at in some(by, value_lines(lines, "objecttype")):
        key, _, value = lines[at].partition("=")
        if re.fullmatch(r"0x[0-9]+", value.strip()) and int(value, 16) in words:
            lines[at] = f"{key}={by.choice(words[int(value, 16)])}"


def accesses(lines, by):
    for at in some(by, value_lines(lines, "accesstype")):
        key, _, value = lines[at].partition("=")
        if value.strip() in ACCESSES:
            lines[at] = f"{key}={by.choice(ACCESSES[value.strip()])}"


def quotes(lines, by):
    for at in some(by, value_lines(lines, *NUMBERS, "accesstype")):
        key, _, value = lines[at].partition("=")
        if not is_text(lines, at):
            lines[at] = f'{key}="{value.strip()}"'


def flags(lines, by):
    words = {"0": ("no", "false", "off"), "1": ("yes", "true", "TRUE", "on")}
    for at in some(by, value_lines(lines, "pdomapping", *(f"baudrate_{it}" for it in RATES))):
        key, _, value = lines[at].partition("=")
        if value.strip() in words:
            lines[at] = f"{key}={by.choice(words[value.strip()])}"


def headers(lines, by):
    subs = [r"\1sub\2", r"\1 sub \2", r"\1subindex\2", r"\1.\2", r"\1_\2", r"\1/\2", r"0x\1sub\2", r"\1Sub\2", r"\1sub0x\2", r"\1_sub_\2", r"\1h sub\2"]
    mains = [r"0x\1", r"\1h", r"$\1", r" \1 "]
    sub, main = by.choice(subs), by.choice(mains)
    for at, line in enumerate(lines):
        if re.fullmatch(r"\[([0-9A-Fa-f]{4})sub([0-9A-Fa-f]{1,2})\]", line):
            lines[at] = "[" + re.sub(r"^([0-9A-Fa-f]{4})sub([0-9A-Fa-f]{1,2})$", sub, line[1:-1]) + "]"
        elif re.fullmatch(r"\[([0-9A-Fa-f]{4})\]", line) and by.random() < 0.5:
            lines[at] = "[" + re.sub(r"^([0-9A-Fa-f]{4})$", main, line[1:-1]) + "]"


def named_sections(lines, by):
    for at, line in enumerate(lines):
        it = re.fullmatch(r"\[(Mandatory|Optional|Manufacturer)Objects\]", line)
        if it:
            lines[at] = by.choice([f"[{it[1]} Objects]", f"[{it[1].upper()}OBJECTS]", f"[ {it[1]}Objects ]"])
        elif line == "[DeviceInfo]":
            lines[at] = by.choice(["[Device Info]", "[DEVICEINFO]", "[DeviceInfo ]"])


def tails_of_headers(lines, by):
    for at, line in enumerate(lines):
        if line.startswith("[") and by.random() < 0.3:
            lines[at] = line + by.choice([" ; object", "  ", "\t; x", " // y"])


def keys(lines, by):
    ways = [("PDOMapping", "PDO Mapping"), ("DefaultValue", "Default Value"), ("AccessType", "Access_Type"), ("DataType", "Data-Type"), ("ObjectType", "OBJECTTYPE"), ("LowLimit", "Low Limit"), ("HighLimit", "high_limit")]
    old, new = by.choice(ways)
    for at, line in enumerate(lines):
        if line.lower().startswith(old.lower() + "="):
            lines[at] = new + line[len(old):]


def list_places(lines):
    """The lines of entries of lists."""
    inside, found = False, []
    for at, line in enumerate(lines):
        if line.startswith("["):
            inside = line.lower().replace(" ", "").endswith("objects]")
        elif inside and re.match(r"\d+=", line):
            found.append(at)
    return found


def bare_lists(lines, by):
    """Entries in hexadecimal without 0x, of all lists: 1018 is no decimal number of an index there."""
    for at in list_places(lines):
        lines[at] = lines[at].replace("0x", "")


def zeros(lines, by):
    for at in list_places(lines):
        key, _, value = lines[at].partition("=")
        lines[at] = f"{int(key):02d}={value}"


def gaps(lines, by):
    """An entry more that is empty, and one that names an object that is not there."""
    for begin in [at for at, line in enumerate(lines) if line.lower().startswith("supportedobjects=")][:1]:
        count = number(lines[begin].partition("=")[2].strip() or "0")
        if not re.fullmatch(r"\d+|0x[0-9a-fA-F]+", lines[begin].partition("=")[2].strip()):
            return
        lines[begin] = f"SupportedObjects={count + 2}"
        lines[begin + 1:begin + 1] = [f"{count + 1}=0x5F00", f"{count + 2}="]


def without_types(lines, by):
    """CiA 301 says the type of these."""
    for at in range(len(lines) - 1, -1, -1):
        it = re.fullmatch(r"\[([0-9A-Fa-f]{4})\]", lines[at])
        if it and int(it[1], 16) in FIXED_TYPES and by.random() < 0.7:
            for place in range(at + 1, len(lines)):
                if lines[place].startswith("["):
                    break
                if lines[place].lower().startswith("datatype="):
                    del lines[place]
                    break


def without_object_types(lines, by):
    for at in [it for it in value_lines(lines, "objecttype") if re.fullmatch(r"(0x)?0?[79]", lines[it].partition("=")[2].strip())][::-1]:
        if by.random() < 0.3 and lines[at].partition("=")[2].strip().endswith("7"):
            del lines[at]


def twice(lines, by):
    for at in sorted(some(by, value_lines(lines, "datatype", "objecttype", "accesstype"))[:3], reverse=True):
        lines.insert(at, lines[at])


def rules(lines, by):
    for at in sorted((at for at, line in enumerate(lines) if line.startswith("[")), reverse=True):
        if by.random() < 0.2:
            lines.insert(at, by.choice(["=========", "--------", "# an object", "// an object", "********", "; of the maker"]))


def preamble(lines, by):
    lines[0:0] = by.choice([["EDS file of the maker"], ["# made by hand"], ["Copyright (c) of the maker", ""], ["******", "* unit *"]])


def garbage(lines, by):
    """A value of an object that no plan needs, where it had none."""
    for at, line in enumerate(lines):
        if line.startswith("[2") or line.startswith("[6"):
            end = next((it for it in range(at + 1, len(lines)) if lines[it].startswith("[")), len(lines))
            places = [it for it in range(at + 1, end) if lines[it].lower() in ("defaultvalue=", "lowlimit=", "highlimit=")]
            for place in places:
                if by.random() < 0.3 and not is_text(lines, place):
                    lines[place] += by.choice(["2000 counts", "see manual", "1.5", "x"])


def blanks(lines, by):
    for at, line in enumerate(lines):
        if "=" in line and by.random() < 0.2:
            key, _, value = line.partition("=")
            lines[at] = by.choice([f"  {key} = {value}", f"\t{key}={value}", f"{key} ={value}  "])


MANNERS = (comments, numbers, nodes, types, object_types, accesses, quotes, flags, headers, named_sections, tails_of_headers, keys, bare_lists, zeros, gaps, without_types, without_object_types, twice, rules, preamble, garbage, blanks)
ORDER = {it: place for place, it in enumerate((garbage, gaps, zeros, without_types, without_object_types, nodes, types, object_types, accesses, flags, bare_lists, numbers, quotes, comments, twice, keys, blanks, named_sections, headers, tails_of_headers, rules, preamble))}


def bytes_in(text, by):
    way = by.randrange(8)
    if way == 0:
        return b"\xff\xfe" + text.encode("utf-16-le")
    if way == 1:
        return text.replace("\n", "\r").encode("latin-1")
    if way == 2:
        return text.replace("\n", "\r\n").encode("latin-1") + b"\x1a"
    if way == 3:
        return b"\xef\xbb\xbf" + text.encode("utf-8")
    return text.encode("latin-1")


def run(*words):
    it = subprocess.run([PROGRAM, *words], capture_output=True, timeout=60)
    return it.returncode, it.stdout, it.stderr


def drawn(text, by):
    lines = re.split(r"\r?\n", text)
    manners = sorted(by.sample(MANNERS, by.randint(1, 4)), key=ORDER.get)
    for manner in manners:
        manner(lines, by)
    return manners, "\n".join(lines)


def main(words):
    count, seed = int(words[0]) if words else 300, int(words[1]) if len(words) > 1 else 1
    by, faults, refused = random.Random(seed), [], collections.Counter()
    texts = [bytes_of(it).decode("latin-1") for it in sorted(glob.glob(f"{HERE}/examples/*/*.eds"))]
    outside = 0
    with tempfile.TemporaryDirectory() as folder:
        for turn in range(count):
            text = by.choice(texts)
            manners, bent = drawn(text, by)
            write(f"{folder}/in.eds", bytes_in(bent, by))
            if os.path.exists(f"{folder}/out.eds"):
                os.remove(f"{folder}/out.eds")
            status, _, fault = run("tidy", f"{folder}/in.eds", f"{folder}/out.eds")
            names = " ".join(it.__name__ for it in manners)
            if status == 3:
                outside += 1
                for manner in manners:
                    refused[manner.__name__, fault.split()[2].decode()] += 1
                if os.environ.get("KEEP"):
                    write(f"{os.environ['KEEP']}/{turn}-{fault.split()[2].decode()}-{fault.split()[3].decode()}.eds", bytes_of(f"{folder}/in.eds"))
            elif status != 0:
                faults.append(f"{turn}: {names}: {status} {fault}")
            elif not is_meant(bytes_of(f"{folder}/out.eds"), text):
                faults.append(f"{turn}: {names}: another meaning")
                if os.environ.get("KEEP"):
                    write(f"{os.environ['KEEP']}/{turn}-meaning.eds", bytes_of(f"{folder}/in.eds"))
    print(f"{count} texts, {outside} refused")
    for (name, rule), times in refused.most_common(12):
        print(f"  {name}: rule {rule}, {times} times")
    if outside * 12 > count:
        faults.append("more than one in twelve is refused")
    return status_of(faults)


if __name__ == "__main__":
    sys.exit(main(sys.argv[1:]))
