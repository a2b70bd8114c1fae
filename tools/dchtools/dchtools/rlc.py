"""The C/T field of MAC (TS 25.321 9.2.1) and the PDUs of RLC (TS 25.322 9.2), as they are read."""
from __future__ import annotations

from dataclasses import dataclass
from typing import Union

from .config import Bearer, Configuration
from .iub import Block


def bearer_of(configuration: Configuration, way: str, block: Block) -> tuple[Bearer, bytes] | None:
    """The bearer of a block and the octets of its PDU (for a transparent bearer: of its bits, padded at the end), or
    None where nobody gets it."""
    bearers = configuration.on(way, block.channel)
    if block.size == 0 or not bearers:
        return None
    if len(bearers) == 1:
        return bearers[0], block.octets
    field_value = block.octets[0] >> 4
    for bearer in bearers:
        if bearer.logical == field_value + 1:
            bits = int.from_bytes(block.octets) >> 8 * len(block.octets) - block.size & (1 << block.size - 4) - 1
            return bearer, bits.to_bytes((block.size - 4) // 8)
    return None


@dataclass
class DataPdu:
    """A data PDU of RLC: its sequence number, the poll bit (acknowledged mode), and how many SDUs end in it."""
    number: int
    poll: bool
    ends: int


@dataclass
class StatusPdu:
    """A status: the number up to which all is acknowledged, and the numbers that are asked for again."""
    acknowledged: int | None
    missing: list[int]


@dataclass
class ResetPdu:
    """A RESET, or the answer to one, with its sequence number RSN and the HFNI."""
    is_answer: bool
    number: int
    hfni: int


Pdu = Union[DataPdu, StatusPdu, ResetPdu]


def read_pdu(mode: str, octets: bytes) -> Pdu | None:
    """An RLC PDU of the unacknowledged or acknowledged mode; None where it is damaged or of no kind that is known."""
    if mode == 'um':
        return DataPdu(octets[0] >> 1, False, count_ends(octets, 1, octets[0] & 1)) if octets else None
    if len(octets) < 2:
        return None
    if octets[0] >> 7:
        number = int.from_bytes(octets[:2]) >> 3 & 0xfff
        return DataPdu(number, bool(octets[1] >> 2 & 1), count_ends(octets, 2, octets[1] & 3))
    kind = octets[0] >> 4
    if kind in (1, 2) and len(octets) >= 4:
        # RSN, three reserved bits, and an HFNI of 20 bits.
        return ResetPdu(kind == 2, octets[0] >> 3 & 1, int.from_bytes(octets[1:4]) >> 4)
    return read_status(octets) if kind == 0 else None


def count_ends(octets: bytes, at: int, more: int) -> int:
    """How many length indicators mark the end of an SDU."""
    ends = 0
    while more == 1 and at < len(octets):
        indicator, more = octets[at] >> 1, octets[at] & 1
        ends += indicator < 0b1111100
        at += 1
    return ends


class Bits:
    """The bits of a text of octets, taken from the front."""

    def __init__(self, octets: bytes, at: int) -> None:
        self.bits, self.at = ''.join(f'{octet:08b}' for octet in octets), at

    def take(self, width: int) -> int:
        if self.at + width > len(self.bits):
            raise EOFError
        self.at += width
        return int(self.bits[self.at - width:self.at], 2)


def read_status(octets: bytes) -> StatusPdu | None:
    """The fields of a status: NO_MORE, WINDOW, ACK, LIST and BITMAP."""
    bits, missing = Bits(octets, 4), list[int]()
    try:
        while True:
            kind = bits.take(4)
            if kind == 0:
                return StatusPdu(None, missing)
            if kind == 1:
                bits.take(12)
            elif kind == 2:
                return StatusPdu(bits.take(12), missing)
            elif kind == 3:
                for _ in range(bits.take(4)):
                    first, more = bits.take(12), bits.take(4)
                    missing += [(first + i) % 4096 for i in range(more + 1)]
            elif kind == 4:
                length, first = bits.take(4) + 1, bits.take(12)
                missing += [(first + i) % 4096 for i in range(8 * length) if bits.take(1) == 0]
            else:
                return None
    except EOFError:
        return None
