"""What happens at a node, as values: one class for each form of a line of a script (docs/FORMATS.md).

A direction is given where both ends are run together (`link`, `soft`), and left out at a node alone. `line` is the line
that the program takes."""
from __future__ import annotations

from collections.abc import Callable
from dataclasses import dataclass
from typing import Union

from .faults import BadInput
from .values import ENDS, Data, letters, named, number, octets, written


@dataclass(frozen=True)
class Unit:
    """An SDU is offered to a bearer."""
    bearer: int
    data: Data
    direction: str | None = None

    @property
    def line(self) -> str:
        return ' '.join(['unit', *way_of(self.direction), str(self.bearer), written(self.data)])


@dataclass(frozen=True)
class Block:
    """A combination isn't chosen any more."""
    combination: int
    direction: str | None = None

    @property
    def line(self) -> str:
        return ' '.join(['block', *way_of(self.direction), str(self.combination)])


@dataclass(frozen=True)
class Free:
    """A combination may be chosen again."""
    combination: int
    direction: str | None = None

    @property
    def line(self) -> str:
        return ' '.join(['free', *way_of(self.direction), str(self.combination)])


@dataclass(frozen=True)
class TakeIub:
    """An Iub frame arrives for a set."""
    set: int
    octets: bytes

    @property
    def line(self) -> str:
        return f'iub {self.set} {written(self.octets)}'


@dataclass(frozen=True)
class TakePhy:
    """A radio frame arrives: its TFCI bits and channel bits."""
    tfci: str
    cells: str

    @property
    def line(self) -> str:
        return f'phy {written(self.tfci)} {written(self.cells)}'


@dataclass(frozen=True)
class MissPhy:
    """A radio frame is missing."""
    line = 'phy none'


@dataclass(frozen=True)
class Tick:
    """10 ms pass at a terminal or a network controller."""
    line = 'tick'


@dataclass(frozen=True)
class Down:
    """The downlink radio frame of the CFN is due at a Node B."""
    line = 'down'


@dataclass(frozen=True)
class Change:
    """The second configuration becomes active."""
    line = 'change'


@dataclass(frozen=True)
class Pass:
    """Radio frames pass (`frame N`)."""
    count: int = 1

    @property
    def line(self) -> str:
        return f'frame {self.count}'


@dataclass(frozen=True)
class Flip:
    """A channel bit (`'d'`) or a TFCI bit (`'t'`) of the next radio frame is flipped."""
    direction: str
    part: str
    place: int

    @property
    def line(self) -> str:
        return f'flip {self.direction} {self.part} {self.place}'


@dataclass(frozen=True)
class Lose:
    """The next radio frame of a direction is lost."""
    direction: str

    @property
    def line(self) -> str:
        return f'lose {self.direction}'


@dataclass(frozen=True)
class LoseIub:
    """An Iub frame of a set in the next radio frame is lost."""
    direction: str
    set: int

    @property
    def line(self) -> str:
        return f'lose iub{self.direction} {self.set}'


@dataclass(frozen=True)
class Spoil:
    """An octet of an Iub frame of a set in the next radio frame is changed by exclusive or with a mask."""
    direction: str
    set: int
    octet: int
    mask: int

    @property
    def line(self) -> str:
        return f'spoil iub{self.direction} {self.set} {self.octet} {self.mask:02x}'


@dataclass(frozen=True)
class OnLeg:
    """Damage of one leg of a soft handover."""
    leg: int
    damage: Damage

    @property
    def line(self) -> str:
        return f'leg {self.leg} {self.damage.line}'


@dataclass(frozen=True)
class Ends:
    """The two ends of `pair`: the octets of the PDUs that `a` and `b` build, the buffer and the window."""
    a: int
    b: int
    buffer: int
    window: int

    @property
    def line(self) -> str:
        return f'ends {self.a} {self.b} {self.buffer} {self.window}'


@dataclass(frozen=True)
class Offer:
    """An SDU is offered to an end."""
    end: str
    octets: bytes

    @property
    def line(self) -> str:
        return f'offer {self.end} {written(self.octets)}'


@dataclass(frozen=True)
class AtEnd:
    """What has no more to it than an end: `build`, `arrive`, `lose`, `tick` or `reset`."""
    what: str
    end: str

    @property
    def line(self) -> str:
        return f'{self.what} {self.end}'


Damage = Union[Flip, Lose, LoseIub, Spoil]
Event = Union[Unit, Block, Free, TakeIub, TakePhy, MissPhy, Tick, Down, Change, Pass, Flip, Lose, LoseIub, Spoil, OnLeg,
              Ends, Offer, AtEnd]
"""What may happen at a node."""

WAYS = ('up', 'down')
IUB_WAYS = {'iubup': 'up', 'iubdown': 'down'}


def way_of(direction: str | None) -> list[str]:
    return [] if direction is None else [direction]


def event_of(line: str, is_transparent: Callable[[int], bool] = lambda bearer: False) -> Event:
    """The event of a well-formed line of a script. Whether a bearer is transparent tells how its SDUs are written."""
    try:
        words = line.split(' ')
        event = event_of_words(words, is_transparent)
        if len(event.line.split(' ')) != len(words) and words != ['frame']:
            raise ValueError
        return event
    except (ValueError, IndexError, KeyError, TypeError):
        raise BadInput(f'{line[:60]!r} is no line of a script') from None


def event_of_words(words: list[str], is_transparent: Callable[[int], bool]) -> Event:
    word, *rest = words
    if word == 'leg':
        damage = event_of_words(rest[1:], is_transparent)
        if not isinstance(damage, (Flip, Lose, LoseIub, Spoil)):
            raise ValueError
        return OnLeg(number(rest[0]), damage)
    if word in ('unit', 'block', 'free'):
        direction = rest.pop(0) if rest[0] in WAYS else None
        at = number(rest[0])
        if word == 'unit':
            return Unit(at, letters(rest[1]) if is_transparent(at) else octets(rest[1]), direction)
        return Block(at, direction) if word == 'block' else Free(at, direction)
    return SIMPLE[word](rest)


def phy_of(rest: list[str]) -> Event:
    return MissPhy() if rest == ['none'] else TakePhy(letters(rest[0]), letters(rest[1]))


def lose_of(rest: list[str]) -> Event:
    if rest[0] in IUB_WAYS:
        return LoseIub(IUB_WAYS[rest[0]], number(rest[1]))
    return Lose(rest[0]) if rest[0] in WAYS else at_end('lose', rest)


def at_end(word: str, rest: list[str]) -> AtEnd:
    return AtEnd(word, named(rest[0], ENDS))


def mask_of(text: str) -> int:
    if len(text) != 2:
        raise ValueError
    return bytes.fromhex(text)[0]


SIMPLE: dict[str, Callable[[list[str]], Event]] = {
    'iub': lambda rest: TakeIub(number(rest[0]), octets(rest[1])), 'phy': phy_of, 'lose': lose_of,
    'tick': lambda rest: at_end('tick', rest) if rest else Tick(),
    'down': lambda rest: Down(), 'change': lambda rest: Change(),
    'frame': lambda rest: Pass(number(rest[0]) if rest else 1),
    'flip': lambda rest: Flip(named(rest[0], WAYS), named(rest[1], ('d', 't')), number(rest[2])),
    'spoil': lambda rest: Spoil(IUB_WAYS[rest[0]], number(rest[1]), number(rest[2]), mask_of(rest[3])),
    'ends': lambda rest: Ends(number(rest[0]), number(rest[1]), number(rest[2]), number(rest[3])),
    'offer': lambda rest: Offer(named(rest[0], ENDS), octets(rest[1])),
    'build': lambda rest: at_end('build', rest), 'arrive': lambda rest: at_end('arrive', rest),
    'reset': lambda rest: at_end('reset', rest)}
