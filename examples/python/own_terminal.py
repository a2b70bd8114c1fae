#!/usr/bin/env python3
"""A terminal of one's own against the network controller of dch. It sends SDUs of 15 octets in acknowledged mode, one
in an Iub frame, over a line that damages every third frame, and sends again what the controller's statuses ask for.

PYTHONPATH has tools/dchtools."""
from pathlib import Path

from dchtools import Got, Iub, Node, read_configuration, read_frame, write_frame
from dchtools.iub import Block, Frame
from dchtools.rlc import StatusPdu, bearer_of, read_pdu

text = (Path(__file__).parent.parent / 'speech.toml').read_text()
configuration = read_configuration(text, 'speech.toml')
sdus = [f'SDU number {number:04}'.encode() for number in range(10)]


def frame_of(number: int, cfn: int) -> bytes:
    """A frame of set 1 with a PDU that polls: a header, a length indicator of 15 octets, and the SDU."""
    pdu = (0x8000 | number << 3 | 0b101).to_bytes(2) + bytes([15 << 1]) + sdus[number]
    block = (1 << 144 | int.from_bytes(pdu)) << 4  # logical channel 2, the PDU, and 4 bits of padding
    return write_frame(configuration, 'up', Frame(cfn, [1], [Block(3, block.to_bytes(19), 148)]))


def asked_again(frame: bytes) -> list[int]:
    """The sequence numbers for which a downlink frame of set 1 asks."""
    blocks = read_frame(configuration, 'down', 1, frame).blocks
    taken = [bearer_of(configuration, 'down', block) for block in blocks]
    statuses = [read_pdu('am', octets) for bearer, octets in filter(None, taken) if bearer.number == 4]
    return [number for status in statuses if isinstance(status, StatusPdu) for number in status.missing]


due, line, delivered = list(range(len(sdus))), list[bytes](), list[bytes]()
with Node('rnc', text) as rnc:
    for tick in range(160):
        if tick % 4 == 0 and due:
            line.append(frame_of(due.pop(0), tick))
            damage = 1 if len(line) % 3 == 0 else 0
            octets = line[-1][:9] + bytes([line[-1][9] ^ damage]) + line[-1][10:]
            delivered += [told.octets for told in rnc.iub(1, octets) if isinstance(told, Got)]
        for told in rnc.tick():
            if isinstance(told, Iub) and told.set == 1:
                due += [number for number in asked_again(told.octets) if number not in due]
assert delivered == sdus
print(f'{len(delivered)} SDUs came in order, though {len(line) // 3} of {len(line)} Iub frames were damaged')
