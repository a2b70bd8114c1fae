"""What a node tells, as values: one class for each line of a report (docs/FORMATS.md, "Lines of a report").

A direction is `'up'` or `'down'`. A bearer is its place in the configuration, a channel and a set are numbers of their
direction. Octets are bytes. Bits and cells are letters: `0`, `1`, and `-` where nothing is sent (DTX)."""
from __future__ import annotations

from collections.abc import Callable, Iterable
from dataclasses import astuple, dataclass, fields
from typing import Union

from .faults import BadInput

Data = Union[bytes, str]
"""An SDU: octets, or of a transparent bearer its bits as letters."""


@dataclass(frozen=True)
class Open:
    """The configuration is accepted and memory is taken."""


@dataclass(frozen=True)
class Took:
    """An SDU of a bearer is accepted."""
    direction: str
    bearer: int


@dataclass(frozen=True)
class Full:
    """An SDU isn't accepted, since the bearer has no room."""
    direction: str
    bearer: int


@dataclass(frozen=True)
class Wrong:
    """An SDU isn't accepted, since it has a wrong size."""
    direction: str
    bearer: int


@dataclass(frozen=True)
class Got:
    """An SDU of an unacknowledged or acknowledged bearer is handed up."""
    direction: str
    bearer: int
    octets: bytes


@dataclass(frozen=True)
class GotBits:
    """An SDU of a transparent bearer is handed up."""
    direction: str
    bearer: int
    bits: str


@dataclass(frozen=True)
class Iub:
    """An Iub frame of a set is sent (TS 25.427 6.2)."""
    direction: str
    set: int
    octets: bytes


@dataclass(frozen=True)
class IubBad:
    """An Iub frame is refused; the number is that of `iub.BadFrame`, and 7 in soft handover for another CFN."""
    direction: str
    set: int
    number: int


@dataclass(frozen=True)
class Phy:
    """A radio frame of 10 ms is sent: its TFCI bits, 30 or 120, and its channel bits."""
    direction: str
    tfci: str
    cells: str


@dataclass(frozen=True)
class PhyNone:
    """No downlink radio frame is sent: no combination has the formats that run."""


@dataclass(frozen=True)
class BadTti:
    """Radio frame `frame` of a TTI is missing, or its format can't be told."""
    direction: str
    channel: int
    frame: int


@dataclass(frozen=True)
class Bad:
    """A transport block isn't taken: its parity doesn't fit, or it is marked bad."""
    direction: str
    channel: int
    block: int


@dataclass(frozen=True)
class Reserved:
    """A transport block has the C/T field that is reserved (TS 25.321 9.2.1)."""
    direction: str
    channel: int


@dataclass(frozen=True)
class NoBearer:
    """No bearer of the channel has this logical channel."""
    direction: str
    channel: int
    logical: int


@dataclass(frozen=True)
class Nobody:
    """A transport block came on a channel without bearers."""
    direction: str
    channel: int


@dataclass(frozen=True)
class PduBad:
    """An RLC PDU is refused: too short (1), reserved (2), length indicators (3), fields of a status (4)."""
    direction: str
    bearer: int
    number: int


@dataclass(frozen=True)
class Outside:
    """A number of a PDU or a status is outside the window."""
    direction: str
    bearer: int


@dataclass(frozen=True)
class Overlong:
    """An SDU of more than 1,500 octets ended, and is dropped."""
    direction: str
    bearer: int


@dataclass(frozen=True)
class Differs:
    """The line `false` of link: blocks that were taken as good aren't those that were given."""
    direction: str
    channel: int


@dataclass(frozen=True)
class EndTook:
    """An SDU is accepted at an end, `'a'` or `'b'`, of `pair`."""
    end: str


@dataclass(frozen=True)
class EndFull:
    """An SDU isn't accepted at an end, which has no room."""
    end: str


@dataclass(frozen=True)
class EndWrong:
    """An SDU isn't accepted at an end: it has no octet, or more than 1,500."""
    end: str


@dataclass(frozen=True)
class EndSent:
    """An end builds a PDU."""
    end: str
    octets: bytes


@dataclass(frozen=True)
class EndRestart:
    """An end begins anew."""
    end: str


@dataclass(frozen=True)
class EndOutside:
    """A number of a PDU or a status is outside the window of an end."""
    end: str


@dataclass(frozen=True)
class EndPduBad:
    """A PDU is refused at an end; the numbers are those of `PduBad`."""
    end: str
    number: int


@dataclass(frozen=True)
class EndOverlong:
    """An SDU of more than 1,500 octets ended at an end."""
    end: str


@dataclass(frozen=True)
class EndGot:
    """An SDU is handed up at an end."""
    end: str
    octets: bytes


@dataclass(frozen=True)
class End:
    """The closing line: how many radio frames passed, or how many lines were read."""
    of: str
    count: int


@dataclass(frozen=True)
class Leg:
    """What is told of one leg of a soft handover."""
    leg: int
    told: Plain


Plain = Union[Open, Took, Full, Wrong, Got, GotBits, Iub, IubBad, Phy, PhyNone, BadTti, Bad, Reserved, NoBearer,
              Nobody, PduBad, Outside, Overlong, Differs, EndTook, EndFull, EndWrong, EndSent, EndRestart, EndOutside,
              EndPduBad, EndOverlong, EndGot, End]
Told = Union[Plain, Leg]
"""What a node tells."""

# A line is its first word and the fields of its class. The forms of a field are D (a direction), N (a number),
# H (octets), B (bits or cells) and E (an end).
FORMS: dict[str, tuple[str, Callable[..., Plain]]] = {
    'open': ('', Open), 'took': ('DN', Took), 'full': ('DN', Full), 'wrong': ('DN', Wrong), 'iubbad': ('DNN', IubBad),
    'badtti': ('DNN', BadTti), 'bad': ('DNN', Bad), 'reserved': ('DN', Reserved), 'nobearer': ('DNN', NoBearer),
    'nobody': ('DN', Nobody), 'pdubad': ('DNN', PduBad), 'outside': ('DN', Outside), 'overlong': ('DN', Overlong),
    'got': ('DNH', Got), 'false': ('DN', Differs)}
END_FORMS: dict[str, tuple[str, Callable[..., Plain]]] = {
    'took': ('E', EndTook), 'full': ('E', EndFull), 'wrong': ('E', EndWrong), 'sent': ('EH', EndSent),
    'restart': ('E', EndRestart), 'outside': ('E', EndOutside), 'pdubad': ('EN', EndPduBad),
    'overlong': ('E', EndOverlong), 'got': ('EH', EndGot)}
WORD_OF = {made: word for table in (FORMS, END_FORMS) for word, (_, made) in table.items()} | {GotBits: 'got'}
ENDS = ('a', 'b')


def value_of(line: str, is_transparent: Callable[[int], bool] = lambda bearer: False) -> Told:
    """The value of a line of a report. Whether a bearer is transparent tells how its SDUs are written."""
    try:
        words = line.split(' ')
        if words[0] == 'leg':
            return Leg(number(words[1]), plain_value(words[2:], is_transparent))
        return plain_value(words, is_transparent)
    except (ValueError, IndexError, KeyError, TypeError):
        raise BadInput(f'{line[:60]!r} is no line of a report') from None


def plain_value(words: list[str], is_transparent: Callable[[int], bool]) -> Plain:
    word, *rest = words
    if word in ('iubdown', 'iubup'):
        frame_set, text = exactly(rest, 2)
        return Iub(word[3:], number(frame_set), octets(text))
    if words == ['phydown', 'none']:
        return PhyNone()
    if word in ('phydown', 'phyup'):
        tfci, cells = exactly(rest, 2)
        return Phy(word[3:], letters(tfci), letters(cells))
    if word == 'end':
        of, _, count = rest[0].partition('=')
        return End(named(of, ('frames', 'lines')), number(count))
    if word == 'got' and rest[0] not in ENDS and is_transparent(number(rest[1])):
        return GotBits(named(rest[0], ('up', 'down')), number(rest[1]), letters(rest[2]))
    form, made = (END_FORMS if rest and rest[0] in ENDS else FORMS)[word]
    return made(*(READERS[kind](text) for kind, text in zip(form, exactly(rest, len(form)))))


def exactly(words: list[str], count: int) -> list[str]:
    if len(words) != count:
        raise ValueError
    return words


def number(text: str) -> int:
    if not text.isdigit() or text != str(int(text)):
        raise ValueError
    return int(text)


def octets(text: str) -> bytes:
    return b'' if text == '.' else bytes.fromhex(text)


def letters(text: str) -> str:
    if text != '.' and set(text) - set('01-'):
        raise ValueError
    return '' if text == '.' else text


def named(text: str, names: Iterable[str]) -> str:
    if text not in names:
        raise ValueError
    return text


READERS: dict[str, Callable[[str], object]] = {
    'D': lambda text: named(text, ('up', 'down')), 'N': number, 'H': octets, 'B': letters,
    'E': lambda text: named(text, ENDS)}


def line_of(told: Told) -> str:
    """The line of a report that has this value."""
    if isinstance(told, Leg):
        return f'leg {told.leg} {line_of(told.told)}'
    if isinstance(told, (Iub, Phy)):
        word = 'iub' if isinstance(told, Iub) else 'phy'
        return ' '.join([word + told.direction, *(written(getattr(told, field.name)) for field in fields(told)[1:])])
    if isinstance(told, PhyNone):
        return 'phydown none'
    if isinstance(told, End):
        return f'end {told.of}={told.count}'
    return ' '.join([WORD_OF[type(told)], *map(written, astuple(told))])


def written(field: object) -> str:
    """A field as a word: octets in hexadecimal, and an empty text as `.`."""
    return (field.hex() if isinstance(field, bytes) else str(field)) or '.'
