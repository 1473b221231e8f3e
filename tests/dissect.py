#!/usr/bin/env python3
"""Has Wireshark's tshark take MTP level 3 management messages apart (Q.704, ITU label).

A message is a line of seven words parted by tabs: NAME NI DPC OPC SLC FIELD OCTETS.

  dissect.py FILE        compare what tshark reads in each line's octets with the
                         line's own words; FILE may be - for standard input
  dissect.py --expected  write the spread of messages from the encoder below, which
                         shares nothing with the program whose output it judges

Exit status: 0 for no difference, 1 for any, 2 when no comparison could be made.
"""

import re
import struct
import subprocess
import sys
from pathlib import Path
from typing import NamedTuple, Optional

USAGE = "usage: dissect.py FILE, dissect.py - or dissect.py --expected"
MANAGEMENT = 0
LINK_TYPE_MTP3 = 141
CODES = [0, 1, 2, 3, 127, 128, 255, 256, 300, 4096, 5461, 8191, 8192, 10922, 16382, 16383]


class Field(NamedTuple):
    name: str
    octets: int
    values: int


FSN = Field("FSN", octets=1, values=128)
CHANGEBACK_CODE = Field("changeback code", octets=1, values=256)
DESTINATION = Field("affected destination", octets=2, values=16384)


class Kind(NamedTuple):
    heading: int
    field: Optional[Field]


KINDS = {
    "COO": Kind(0x11, FSN),
    "COA": Kind(0x21, FSN),
    "CBD": Kind(0x51, CHANGEBACK_CODE),
    "CBA": Kind(0x61, CHANGEBACK_CODE),
    "ECO": Kind(0x12, None),
    "ECA": Kind(0x22, None),
    "TFP": Kind(0x14, DESTINATION),
    "TFA": Kind(0x54, DESTINATION),
    "RST": Kind(0x15, DESTINATION),
}


class Message(NamedTuple):
    name: str
    ni: int
    dpc: int
    opc: int
    slc: int
    value: Optional[int]


# What is compared, and tshark's name for it. The Info column holds the name that
# tshark itself gives a message, so the headings above are judged as well.
READINGS = {
    "message": "_ws.col.Info",
    "length": "frame.len",
    "service indicator": "mtp3.service_indicator",
    "SIO spare bits": "mtp3.spare",
    "NI": "mtp3.network_indicator",
    "DPC": "mtp3.dpc",
    "OPC": "mtp3.opc",
    "SLC": "mtp3.sls",
    "H0": "mtp3mg.h0",
    "H1": "mtp3mg.h1",
    FSN.name: "mtp3mg.fsn",
    CHANGEBACK_CODE.name: "mtp3mg.cbc",
    DESTINATION.name: "mtp3mg.apc",
    "malformed mark": "_ws.malformed",
    "expert remark": "_ws.expert.message",
}

# Set one by one, since a user's own Wireshark preferences would hold otherwise.
PREFERENCES = [
    "mtp3.standard:ITU",
    "mtp3.heuristic_standard:FALSE",
    "mtp3.itu_pc_structure:Unstructured",
    "mtp3.itu_priority:FALSE",
    'gui.column.format:"Info","%i"',
]


def fail(reason):
    print(reason, file=sys.stderr)
    sys.exit(2)


def encode(message):
    kind = KINDS[message.name]
    sio = MANAGEMENT + 64 * message.ni
    label = message.dpc + 16384 * message.opc + 268435456 * message.slc
    octets = bytes([sio]) + label.to_bytes(4, "little") + bytes([kind.heading])
    if kind.field:
        octets += message.value.to_bytes(kind.field.octets, "little")
    return octets


def spread():
    for name, kind in KINDS.items():
        for k in range(16):
            value = CODES[(k + 5) % 16] % kind.field.values if kind.field else None
            yield Message(name, k % 4, CODES[k], CODES[15 - k], k, value)


def write_expected():
    for message in spread():
        words = ["-" if word is None else str(word) for word in message]
        print(*words, encode(message).hex(), sep="\t")


def number(word, values):
    if not re.fullmatch("0|[1-9][0-9]{0,4}", word) or int(word) >= values:
        raise ValueError(word)
    return int(word)


def field_value(word, field):
    if field:
        return number(word, field.values)
    if word != "-":
        raise ValueError(word)
    return None


def parse(line):
    """The message and the octets of a line; ValueError if the line is not of the form."""
    name, ni, dpc, opc, slc, value, octets = line.decode("ascii").split("\t")
    # An MTP3 message has the SIO and at most 272 octets more.
    if name not in KINDS or not re.fullmatch("([0-9a-f]{2}){1,273}\n", octets):
        raise ValueError(line)
    message = Message(
        name,
        ni=number(ni, 4),
        dpc=number(dpc, 16384),
        opc=number(opc, 16384),
        slc=number(slc, 16),
        value=field_value(value, KINDS[name].field),
    )
    return message, bytes.fromhex(octets)


def read_messages(path):
    try:
        content = sys.stdin.buffer.read() if path == "-" else Path(path).read_bytes()
    except OSError as error:
        fail(f"cannot read {path}: {error.strerror}")
    messages = []
    for position, line in enumerate(content.splitlines(keepends=True), 1):
        try:
            messages.append(parse(line))
        except ValueError:
            fail(f"{path}: line {position} is not NAME NI DPC OPC SLC FIELD OCTETS")
    if not messages:
        fail(f"{path}: no messages")
    return messages


def run_tshark(arguments, capture=b""):
    try:
        done = subprocess.run(["tshark", *arguments], input=capture, capture_output=True)
    except OSError as error:
        fail(f"cannot run tshark ({error.strerror}): install the Debian package tshark")
    if done.returncode:
        fail("tshark failed: " + " ".join(done.stderr.decode().split()))
    return done.stdout.decode()


def tshark_version():
    return re.search(r"[0-9]+(\.[0-9]+)+", run_tshark(["--version"]))[0]


def pcap(packets):
    header = struct.pack("<IHHiIII", 0xA1B2C3D4, 2, 4, 0, 0, 65535, LINK_TYPE_MTP3)
    records = [struct.pack("<IIII", 0, 0, len(p), len(p)) + p for p in packets]
    return header + b"".join(records)


def reading(text):
    try:
        return int(text, 0)
    except ValueError:
        return text.strip() or None


def dissect(packets):
    """What tshark reads in each packet, by the names of READINGS."""
    arguments = ["-n", "-r", "-", "-T", "fields"]
    for preference in PREFERENCES:
        arguments += ["-o", preference]
    for tshark_name in READINGS.values():
        arguments += ["-e", tshark_name]
    rows = run_tshark(arguments, pcap(packets)).splitlines()
    if len(rows) != len(packets):
        fail(f"tshark shows {len(rows)} packets of {len(packets)}")
    return [dict(zip(READINGS, map(reading, row.split("\t")))) for row in rows]


def meant(message):
    """What tshark should read in the message, by the names of READINGS."""
    kind = KINDS[message.name]
    words = dict.fromkeys(READINGS)
    words.update({
        "message": message.name,
        "length": 6,
        "service indicator": MANAGEMENT,
        "SIO spare bits": 0,
        "NI": message.ni,
        "DPC": message.dpc,
        "OPC": message.opc,
        "SLC": message.slc,
        "H0": kind.heading % 16,
        "H1": kind.heading // 16,
    })
    if kind.field:
        words["length"] += kind.field.octets
        words[kind.field.name] = message.value
    return words


def shown(word):
    return "nothing" if word is None else word


def differences(message, octets, read):
    for what, word in meant(message).items():
        if read[what] != word:
            yield f"{what} meant {shown(word)}, tshark reads {shown(read[what])}"
    field = KINDS[message.name].field
    if field:
        # tshark masks the bits above a field away without showing them.
        spare = int.from_bytes(octets[6:6 + field.octets], "little") // field.values
        if spare:
            yield f"spare bits above {field.name} meant 0, the octets hold {spare}"


def compare(path):
    messages = read_messages(path)
    version = tshark_version()
    readings = dissect([octets for _, octets in messages])
    count = 0
    for position, ((message, octets), read) in enumerate(zip(messages, readings), 1):
        for difference in differences(message, octets, read):
            print(f"line {position}: {difference}")
            count += 1
    print(f"{len(messages)} messages taken apart by TShark {version}, {count} differences")
    return 1 if count else 0


def main(arguments):
    if arguments == ["--expected"]:
        write_expected()
        return 0
    if len(arguments) != 1 or re.match("-.", arguments[0]):
        fail(USAGE)
    return compare(arguments[0])


if __name__ == "__main__":
    sys.exit(main(sys.argv[1:]))
