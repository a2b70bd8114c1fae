"""What the tools need of a configuration that `dch check` accepts, and how it is read."""
from __future__ import annotations

import tomllib
from collections.abc import Callable, Iterator
from dataclasses import dataclass
from pathlib import Path
from typing import Any

from .faults import BadInput, read_text

DIRECTIONS = ('up', 'down')


@dataclass
class TransportChannel:
    """A transport channel of a direction; each format is a pair: number of blocks, bits of a block."""
    tti: int
    crc: int
    frame_set: int
    formats: list[tuple[int, int]]
    code: str
    attribute: int

    @property
    def largest(self) -> tuple[int, int]:
        """The format of the most bits."""
        return max(self.formats, key=lambda form: form[0] * form[1])


@dataclass
class Bearer:
    """A bearer: its mode `tm`, `um` or `am`, and its channel in each direction that it has."""
    number: int
    mode: str
    channels: dict[str, int]
    logical: int


@dataclass
class Configuration:
    """The channels of each direction, the bearers, and perhaps the radio frame from which a second one is active."""
    payload_check: bool
    channels: dict[str, list[TransportChannel]]
    bearers: list[Bearer]
    places: dict[str, tuple[int, int]]  # the most channel bits and TFCI bits of a radio frame, by direction
    later: tuple[int, Configuration] | None = None

    def at(self, tick: int) -> Configuration:
        """The configuration that is active in a radio frame, counted from 0."""
        return self.later[1] if self.later and tick >= self.later[0] else self

    def parts(self) -> list[Configuration]:
        """The configuration, and the second one where there is one."""
        return [self, self.later[1]] if self.later else [self]

    def sets(self, way: str) -> list[int]:
        """The frame sets of a direction."""
        return sorted({channel.frame_set for channel in self.channels[way]})

    def of_set(self, way: str, number: int) -> list[int]:
        """The channels of a frame set, in rising order."""
        members = [i for i, channel in enumerate(self.channels[way]) if channel.frame_set == number]
        if not members:
            raise BadInput(f'the configuration has no set {number} {way}')
        return members

    def on(self, way: str, channel: int) -> list[Bearer]:
        """The bearers of a channel. Where there are several, its blocks have a C/T field."""
        return [bearer for bearer in self.bearers if bearer.channels.get(way) == channel]

    def is_transparent(self, bearer: int) -> bool:
        """Whether the SDUs of a bearer are bits."""
        return bearer < len(self.bearers) and self.bearers[bearer].mode == 'tm'


def transparency(configuration: Configuration | None) -> Callable[[int], bool]:
    """Whether the SDUs of a bearer are bits; those of `pair`, which has no configuration, are octets."""
    return configuration.is_transparent if configuration else lambda bearer: False


@dataclass(frozen=True)
class Line:
    """A line of a script with its number in the input, from 1."""
    number: int
    text: str


def parts_of(text: str) -> tuple[list[str], int | None]:
    """The texts of one or two configurations, and N of the line `--- N` between them."""
    lines = text.split('\n')
    for number, line in enumerate(lines):
        if line.startswith('--- '):
            second = line[4:]
            if not second.isdigit():
                raise ValueError(line)
            return ['\n'.join(lines[:number]), '\n'.join(lines[number + 1:])], int(second)
    return [text], None


def split_input(path: str | Path) -> tuple[str, list[Line]]:
    """The text before the line `---`, and the lines behind it that aren't empty."""
    lines = read_text(path).split('\n')
    end = lines.index('---') if '---' in lines else len(lines)
    return '\n'.join(lines[:end]), [Line(end + 2 + i, line) for i, line in enumerate(lines[end + 1:]) if line]


def read_configuration(text: str, name: str | Path) -> Configuration:
    """Reads one configuration, or two with a line `--- N` between them."""
    if text.lstrip('\n').startswith('ends '):
        raise BadInput(f'{name}: this is an input of pair, which has no configuration')
    try:
        texts, second = parts_of(text)
        found = [configuration_of(tomllib.loads(part)) for part in texts]
    except tomllib.TOMLDecodeError as fault:
        raise BadInput(f'{name}: the configuration is no TOML: {fault}') from None
    except (KeyError, TypeError, ValueError, AttributeError) as fault:
        raise BadInput(f'{name}: this is no configuration of dch ({fault!r}); dch check tells more') from None
    if second is not None:
        found[0].later = second, found[1]
    return found[0]


def configuration_of(table: dict[str, Any]) -> Configuration:
    bearers = [Bearer(number, bearer['mode'], {way: bearer[way] for way in DIRECTIONS if way in bearer},
                      bearer.get('logical', 0)) for number, bearer in enumerate(table.get('bearer', []))]
    found = {'up': list(channels_of(table['uplink'])), 'down': list(channels_of(table['downlink']))}
    for bearer in bearers:
        is_there = all(0 <= at < len(found[way]) for way, at in bearer.channels.items())
        if bearer.mode not in ('tm', 'um', 'am') or not is_there:
            raise ValueError(f'bearer {bearer.number}')
    down = table['downlink']
    places = {'up': (int(table['uplink']['largest']), 30),
              'down': (15 * down['slot_bits'] * down['codes'], 30 if down['sf'] >= 128 else 120)}
    return Configuration(table['iub']['payload_check'], found, bearers, places)


def channels_of(side: dict[str, Any]) -> Iterator[TransportChannel]:
    for channel in side['channel']:
        formats = [(int(count), int(size)) for count, size in channel['formats']]
        yield TransportChannel(channel['tti'], channel['crc'], channel['set'], formats, channel['code'], channel['rm'])
