"""Turns the Iub frames of a capture into lines of a script for `dch rnc` or `dch nodeb`."""
from __future__ import annotations

import argparse
import ipaddress
import sys
from collections.abc import Iterable, Iterator
from dataclasses import dataclass
from pathlib import Path

from . import packets
from .config import DIRECTIONS
from .events import TakeIub
from .faults import BadInput, number_of, read_text, run_command

HELP = """
CAPTURE is pcap or pcapng with Ethernet (with VLAN tags or without), Linux cooked or raw IP packets, IPv4 or IPv6,
from which UDP is taken. TABLE says which packets belong to which frame set, a line each:

  up SET PORT [ADDRESS] [from ADDRESS]       uplink frames go to this port (of this address, from that one)
  down SET PORT [ADDRESS] [from ADDRESS]     so do downlink frames

A line that starts with # is a comment. For rnc the frames of the lines `up` become the lines

  iub SET HEX

and between them stands a `tick` for each 10 ms; for nodeb those of the lines `down`, and between them stand `down`
and `phy none` for each radio frame. The frames are put in the order of their CFN, and the time between them is
counted by it from a multiple of 8: the last line on standard error tells with which --start the node is at this CFN.
With --plain the lines `iub` stand alone. Packets that no line of the table takes are passed over and counted, and so
are parts of a packet that IP has divided. What is no data frame is a line too: the node tells what is wrong with it.

Of a soft handover the table names one leg, by its ports or by the address that its frames are from. Where a second
configuration becomes active, --change N puts a line `change` behind N radio frames; a set whose port has changed has
two lines in the table.

Put a configuration, or two, and a line --- in front, and run it:

  (cat config.toml; echo ---; dch-replay rnc CAPTURE TABLE) | dch rnc --start N
"""
PASSING = {'rnc': ['tick'], 'nodeb': ['down', 'phy none']}


@dataclass(frozen=True)
class Entry:
    """A line of the table: frames of a set go to a port, of any address or this one, from any address or that one."""
    way: str
    frame_set: int
    port: int
    address: bytes | None
    source: bytes | None

    def takes(self, found: packets.Udp) -> bool:
        source, _, destination, port, _ = found
        return port == self.port and self.address in (None, destination) and self.source in (None, source)


def read_table(path: str) -> list[Entry]:
    """The lines of a table."""
    entries = []
    for number, line in enumerate(read_text(path).split('\n'), 1):
        words, where = line.split(), f'{path}, line {number}'
        if not words or words[0].startswith('#'):
            continue
        *front, source = words if 'from' in words else [*words, '']
        front = [word for word in front if word != 'from']
        if len(front) not in (3, 4) or front[0] not in DIRECTIONS or len(words) - len(front) not in (0, 2):
            raise BadInput(f'{where}: {line[:60]!r} is not DIRECTION SET PORT [ADDRESS] [from ADDRESS]')
        frame_set, port = number_of(front[1], where), number_of(front[2], where)
        if frame_set > 7 or not 0 < port < 65536:
            raise BadInput(f'{where}: a set is 0 to 7, and a port 1 to 65535')
        address = address_of(front[3], where) if len(front) == 4 else None
        entries.append(Entry(front[0], frame_set, port, address, address_of(source, where) if source else None))
    return entries


def address_of(text: str, where: str) -> bytes:
    try:
        return ipaddress.ip_address(text).packed
    except ValueError:
        raise BadInput(f'{where}: {text[:60]!r} is no address') from None


def by_cfn(frames: Iterable[TakeIub]) -> tuple[list[tuple[int, TakeIub]], int]:
    """The frames in the order of their CFN, each with the number of the radio frame for which it is, counted from a CFN
    that is a multiple of 8, and this CFN."""
    start: int | None = None
    now = 0
    numbered = []
    for frame in frames:
        if len(frame.octets) > 1 and frame.octets[0] & 1 == 0:  # a data frame
            cfn = frame.octets[1]
            if start is None:
                start = now = cfn // 8 * 8
            now += (cfn - now + 128) % 256 - 128
        numbered.append((0 if start is None else max(now - start, 0), frame))
    return sorted(numbered, key=lambda entry: entry[0]), start or 0


def script_of(numbered: list[tuple[int, TakeIub]], passing: list[str], change: int | None) -> Iterator[str]:
    """The lines of the frames, and for each radio frame that passes those of `passing`; `change` behind so many."""
    passed = 0
    for number, frame in numbered:
        while passing and passed < number:
            yield from passing
            passed += 1
            if passed == change:
                yield 'change'
        yield frame.line
    yield from passing


def main() -> None:
    words = argparse.ArgumentParser('dch-replay', description=__doc__, epilog=HELP,
                                    formatter_class=argparse.RawDescriptionHelpFormatter)
    words.add_argument('node', choices=('rnc', 'nodeb'))
    words.add_argument('capture', metavar='CAPTURE')
    words.add_argument('table', metavar='TABLE')
    words.add_argument('--plain', action='store_true', help='the lines iub alone')
    words.add_argument('--change', type=int, metavar='N', help='radio frames before the second configuration')
    given = words.parse_args()
    way = 'up' if given.node == 'rnc' else 'down'
    table = [entry for entry in read_table(given.table) if entry.way == way]
    if not table:
        raise BadInput(f'{given.table}: no line {way} is in it')
    frames, passed_over = [], 0
    for link, octets in packets.read_packets(Path(given.capture).read_bytes(), given.capture):
        found = packets.udp_of(link, octets)
        entry = next((entry for entry in table if entry.takes(found)), None) if found else None
        if found and entry:
            frames.append(TakeIub(entry.frame_set, found[4]))
        else:
            passed_over += 1
    if not frames:
        raise BadInput(f'{given.capture}: no packet is for a port of the table')
    numbered, start = by_cfn(frames)
    for line in script_of(numbered, [] if given.plain else PASSING[given.node], given.change):
        print(line)
    told = f'{len(frames)} frames, {passed_over} other packets; run with --start {start // 8}'
    print(f'dch-replay: {told}', file=sys.stderr)


def command() -> None:
    run_command('dch-replay', main)


if __name__ == '__main__':
    command()
