"""Nodes in process, by the library libdch: a network controller, a terminal and a Node B.

They take the events and tell the values of the nodes over pipes (`node`), with no process and no text between."""
from __future__ import annotations

import ctypes
from collections.abc import Callable
from ctypes import byref

from .events import Block, Change, Down, Event, Free, MissPhy, TakeIub, TakePhy, Tick, Unit
from .faults import BadInput
from .interface import NodeBCalls, RncCalls, Teller, UeCalls, first_cfn, whole_text
from .library import DONE, NOTHING, SHORT, Handle, Kind, Status, answer, call, letters_of, library, open_text
from .values import (Bad, BadTti, Full, Got, GotBits, Iub, IubBad, NoBearer, Nobody, Outside, Overlong, PduBad, Phy,
                     PhyNone, Plain, Reserved, Told, Took, Wrong)

WAYS = ('up', 'down')
# The values by their kind in the header: those of a place, those with one more number, and those with octets.
PLACES: dict[int, Callable[[str, int], Plain]] = {
    0: Took, 1: Full, 2: Wrong, 4: Reserved, 6: Nobody, 8: Outside, 9: Overlong}
PAIRS: dict[int, Callable[[str, int, int], Plain]] = {3: Bad, 5: NoBearer, 7: PduBad, 13: IubBad, 16: BadTti}
OCTETS: dict[int, Callable[[str, int, bytes], Plain]] = {10: Got, 12: Iub}
GOT_BITS, PHY = 11, 14


class InProcess(Teller):
    """A node in process. A configuration that isn't accepted raises `Refused`, and an event that can't happen `Status`;
    the node goes on then as if it had not come."""
    opening = ''

    def __init__(self, text: str, start: int = 0) -> None:
        """Opens a node for a configuration, or two with a line `--- N` between them. The first CFN is 8 times
        `start`."""
        self.handle = Handle()
        self.room = ctypes.create_string_buffer(2000)
        open_text(self.opening, self.handle, whole_text(text), first_cfn(start))

    def close(self) -> None:
        library().dch_close(byref(self.handle))

    def __del__(self) -> None:
        if self.handle.is_open:
            self.close()

    def tell(self, event: Event) -> list[Told]:
        match event:
            case Unit(bearer, bytes() as data):
                self.call('dch_node_unit', bearer, data, len(data))
            case Unit(bearer, str() as data):
                self.call('dch_node_unit_bits', bearer, *letters_of(data))
            case Block(combination):
                self.call('dch_node_block', combination, 1)
            case Free(combination):
                self.call('dch_node_block', combination, 0)
            case TakeIub(set, octets):
                self.call('dch_node_iub', set, octets, len(octets))
            case TakePhy(tfci, cells):
                self.call('dch_node_phy', *letters_of(tfci), *letters_of(cells))
            case MissPhy():
                self.call('dch_node_miss')
            case Down():
                self.call('dch_node_down')
            case Tick():
                self.call('dch_node_tick')
            case Change():
                self.call('dch_node_change')
            case _:
                raise BadInput(f'{event.line[:60]!r} is no event of one node')
        return self.pull()

    def call(self, name: str, *arguments: object) -> None:
        call(name, byref(self.handle), *arguments)

    def pull(self) -> list[Told]:
        """What the node told of its last event."""
        told, found = Kind(), list[Told]()
        while True:
            status = answer('dch_next', byref(self.handle), byref(told), self.room, len(self.room))
            if status == NOTHING:
                return found
            if status == SHORT:
                self.room = ctypes.create_string_buffer(told.length)
            elif status == DONE:
                found.append(value_of(told, self.room.raw[:told.length]))
            else:
                raise Status(status, 'dch_next')


def value_of(told: Kind, octets: bytes) -> Plain:
    """A value as Python has it."""
    way = WAYS[told.direction]
    if told.kind in PLACES:
        return PLACES[told.kind](way, told.number)
    if told.kind in PAIRS:
        return PAIRS[told.kind](way, told.number, told.more)
    if told.kind in OCTETS:
        return OCTETS[told.kind](way, told.number, octets)
    if told.kind == GOT_BITS:
        return GotBits(way, told.number, octets.decode())
    if told.kind == PHY:
        return Phy(way, octets[:told.tfci].decode(), octets[told.tfci:].decode())
    return PhyNone()


class Rnc(InProcess, RncCalls):
    """A network controller with one terminal."""
    opening = 'dch_rnc_open'


class Ue(InProcess, UeCalls):
    """A terminal."""
    opening = 'dch_ue_open'


class NodeB(InProcess, NodeBCalls):
    """A Node B."""
    opening = 'dch_nodeb_open'
