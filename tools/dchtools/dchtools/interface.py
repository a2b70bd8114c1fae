"""The calls of a node, the same for both ways: over the program's pipes (`node`) and in process (`session`)."""
from __future__ import annotations

from abc import ABC, abstractmethod
from types import TracebackType
from typing import Self

from .events import (AtEnd, Block, Change, Damage, Down, Event, Flip, Free, Lose, LoseIub, MissPhy, Offer, OnLeg, Pass,
                     Spoil, TakeIub, TakePhy, Tick, Unit)
from .faults import BadInput
from .values import Data, Told


def whole_text(text: str) -> str:
    """The text of one or two configurations, with its last line ended. No script may stand behind it."""
    whole = text if text.endswith('\n') else text + '\n'
    if '---' in whole.split('\n'):
        raise BadInput('a line --- stands in the configuration, behind which a script begins')
    return whole


def first_cfn(start: int) -> int:
    """The first CFN, which is 8 times `start`."""
    if not 0 <= start < 32:
        raise BadInput(f'start is 0 to 31, and not {start}')
    return 8 * start


class Teller(ABC):
    """What takes events and tells values. A call raises `Refused`, where it is refused."""

    @abstractmethod
    def tell(self, event: Event) -> list[Told]:
        """Lets an event happen, and answers what is told of it, in order."""

    @abstractmethod
    def close(self) -> None:
        """Ends the work; a second call does nothing."""

    def __enter__(self) -> Self:
        return self

    def __exit__(self, kind: type[BaseException] | None, fault: BaseException | None,
                 trace: TracebackType | None) -> None:
        self.close()


class OfLayer2(Teller):
    """What a terminal and a network controller have in common: bearers, combinations and time."""

    def unit(self, bearer: int, data: Data) -> list[Told]:
        """Offers an SDU: octets, or bits as letters to a transparent bearer. The answer is Took, Full or Wrong."""
        return self.tell(Unit(bearer, data))

    def block(self, combination: int) -> list[Told]:
        """The combination isn't chosen any more."""
        return self.tell(Block(combination))

    def free(self, combination: int) -> list[Told]:
        """The combination may be chosen again."""
        return self.tell(Free(combination))

    def tick(self) -> list[Told]:
        """10 ms pass: frames are sent, and at a terminal the radio frame that came is taken."""
        return self.tell(Tick())

    def change(self) -> list[Told]:
        """The second configuration becomes active."""
        return self.tell(Change())


class RncCalls(OfLayer2):
    """The calls of a network controller, as of `dch rnc`."""

    def iub(self, set: int, octets: bytes) -> list[Told]:
        """An uplink Iub frame of a set arrives."""
        return self.tell(TakeIub(set, octets))


class UeCalls(OfLayer2):
    """The calls of a terminal, as of `dch ue`."""

    def phy(self, tfci: str, cells: str) -> list[Told]:
        """The downlink radio frame arrives: TFCI bits, and channel bits as `0`, `1` and `-`."""
        return self.tell(TakePhy(tfci, cells))

    def miss(self) -> list[Told]:
        """The downlink radio frame is missing."""
        return self.tell(MissPhy())


class NodeBCalls(Teller):
    """The calls of a Node B, as of `dch nodeb`."""

    def iub(self, set: int, octets: bytes) -> list[Told]:
        """A downlink Iub frame of a set arrives."""
        return self.tell(TakeIub(set, octets))

    def down(self) -> list[Told]:
        """The downlink radio frame of the CFN is due."""
        return self.tell(Down())

    def phy(self, tfci: str, bits: str) -> list[Told]:
        """The uplink radio frame arrives: TFCI bits and channel bits. The CFN goes on."""
        return self.tell(TakePhy(tfci, bits))

    def miss(self) -> list[Told]:
        """The uplink radio frame is missing. The CFN goes on."""
        return self.tell(MissPhy())

    def change(self) -> list[Told]:
        """The second configuration becomes active."""
        return self.tell(Change())


class LinkCalls(Teller):
    """The calls of `dch link`, and of `dch soft`, where damage is of a leg."""

    def unit(self, direction: str, bearer: int, data: Data) -> list[Told]:
        """Offers an SDU where its direction begins. The answer is Took, Full or Wrong."""
        return self.tell(Unit(bearer, data, direction))

    def block(self, direction: str, combination: int) -> list[Told]:
        """The combination isn't chosen any more."""
        return self.tell(Block(combination, direction))

    def free(self, direction: str, combination: int) -> list[Told]:
        """The combination may be chosen again."""
        return self.tell(Free(combination, direction))

    def frame(self, count: int = 1) -> list[Told]:
        """Radio frames pass at all nodes."""
        return self.tell(Pass(count))

    def flip(self, direction: str, part: str, place: int, leg: int | None = None) -> list[Told]:
        """A channel bit (`'d'`) or TFCI bit (`'t'`) of the next radio frame is flipped."""
        return self.damage(Flip(direction, part, place), leg)

    def lose(self, direction: str, leg: int | None = None) -> list[Told]:
        """The next radio frame is lost."""
        return self.damage(Lose(direction), leg)

    def lose_iub(self, direction: str, set: int, leg: int | None = None) -> list[Told]:
        """The Iub frame of a set in the next radio frame is lost."""
        return self.damage(LoseIub(direction, set), leg)

    def spoil(self, direction: str, set: int, octet: int, mask: int, leg: int | None = None) -> list[Told]:
        """An octet of the Iub frame of a set in the next radio frame is changed."""
        return self.damage(Spoil(direction, set, octet, mask), leg)

    def damage(self, what: Damage, leg: int | None) -> list[Told]:
        """Damage waits for the next radio frame; in soft handover it is of a leg."""
        return self.tell(what if leg is None else OnLeg(leg, what))


class PairCalls(Teller):
    """The calls of `dch pair`: the ends of an acknowledged bearer are `'a'` and `'b'`."""

    def offer(self, end: str, octets: bytes) -> list[Told]:
        """Offers an SDU to an end. The answer is EndTook, EndFull or EndWrong."""
        return self.tell(Offer(end, octets))

    def build(self, end: str) -> list[Told]:
        """The end builds the PDU that is due: EndSent."""
        return self.tell(AtEnd('build', end))

    def arrive(self, end: str) -> list[Told]:
        """The first PDU on its way to the end arrives."""
        return self.tell(AtEnd('arrive', end))

    def lose(self, end: str) -> list[Told]:
        """The first PDU on its way to the end is lost."""
        return self.tell(AtEnd('lose', end))

    def tick(self, end: str) -> list[Told]:
        """10 ms pass at the end."""
        return self.tell(AtEnd('tick', end))

    def reset(self, end: str) -> list[Told]:
        """The end begins to reset the bearer."""
        return self.tell(AtEnd('reset', end))
