"""Iub data frames (TS 25.427 6.2): how they are read, by the tests of the program in their order, and written."""
from __future__ import annotations

from dataclasses import dataclass, field

from .config import Configuration

REASONS = {1: 'too short', 2: 'header check', 3: 'a control frame', 4: 'no such format', 5: 'length',
           6: 'payload check', 7: 'another CFN'}


class BadFrame(Exception):
    """Why an Iub frame can't be read: the number N of the report line `iubbad`."""

    def __init__(self, number: int) -> None:
        super().__init__(REASONS[number])
        self.number = number


@dataclass
class Block:
    """A transport block: its channel, its octets padded at the end, its bits, and whether it is marked bad."""
    channel: int
    octets: bytes
    size: int
    bad: bool = False


@dataclass
class Frame:
    """An Iub data frame: its CFN, a format number for each channel of its set, the transport blocks in order, and in
    the uplink the quality estimate."""
    cfn: int
    tfis: list[int]
    blocks: list[Block] = field(default_factory=list)
    quality: int | None = None


def remainder(octets: bytes, first_bit: int, polynomial: int, width: int) -> int:
    """The parity bits of octets from a bit on, by division by a polynomial of which the highest term is left out."""
    register = 0
    for at in range(first_bit, 8 * len(octets) + width):
        bit = octets[at // 8] >> 7 - at % 8 & 1 if at < 8 * len(octets) else 0
        register = register << 1 | bit
        if register >> width:
            register ^= 1 << width | polynomial
    return register


def header_check(header: bytes) -> int:
    """The 7 check bits of a header, over all of it from the frame type on."""
    return remainder(header, 7, 0b1000101, 7)


def payload_check(payload: bytes) -> int:
    """The 16 check bits of what stands between the header and the check."""
    return remainder(payload, 0, 0x8005, 16)


def read_frame(configuration: Configuration, way: str, frame_set: int, octets: bytes) -> Frame:
    """Reads an Iub data frame of a set, or raises BadFrame.

    The tests come in the order of the program: no octet (1), a control frame (3), the octets of the header (1), its
    check (2), the formats (4), the length (5), and the payload check (6)."""
    members = configuration.of_set(way, frame_set)
    start = 2 + len(members)
    if not octets:
        raise BadFrame(1)
    if octets[0] & 1:
        raise BadFrame(3)
    if len(octets) < start:
        raise BadFrame(1)
    if octets[0] >> 1 != header_check(octets[:start]):
        raise BadFrame(2)
    tfis = [octet & 31 for octet in octets[2:start]]
    known = [configuration.channels[way][member].formats for member in members]
    if any(tfi >= len(formats) for tfi, formats in zip(tfis, known)):
        raise BadFrame(4)
    frame, at = Frame(octets[1], tfis), start
    for member, (count, size) in zip(members, [formats[tfi] for tfi, formats in zip(tfis, known)]):
        length = (size + 7) // 8
        for _ in range(count):
            frame.blocks.append(Block(member, octets[at:at + length], size))
            at += length
    end = at + (1 + (len(frame.blocks) + 7) // 8 if way == 'up' else 0)
    if len(octets) != end + (2 if configuration.payload_check else 0):
        raise BadFrame(5)
    if configuration.payload_check and int.from_bytes(octets[end:]) != payload_check(octets[start:end]):
        raise BadFrame(6)
    if way == 'up':
        frame.quality = octets[at]
        for i, block in enumerate(frame.blocks):
            block.bad = bool(octets[at + 1 + i // 8] >> 7 - i % 8 & 1)
    return frame


def write_frame(configuration: Configuration, way: str, frame: Frame) -> bytes:
    """Writes an Iub data frame. The configuration says whether it has a payload check; that the blocks are those of the
    formats isn't looked at, so a frame that a node refuses can be written too."""
    head = bytes([0, frame.cfn, *frame.tfis])
    payload = b''.join(block.octets for block in frame.blocks)
    if way == 'up':
        marks = [block.bad for block in frame.blocks]
        marks += [False] * (-len(marks) % 8)
        payload += bytes([frame.quality or 0])
        payload += bytes(int(''.join('01'[mark] for mark in marks[i:i + 8]), 2) for i in range(0, len(marks), 8))
    check = payload_check(payload).to_bytes(2) if configuration.payload_check else b''
    return bytes([header_check(head) << 1]) + head[1:] + payload + check
