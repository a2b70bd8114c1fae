"""Counts how many bits of each channel a radio frame has, before and after rate matching, in the radio frames that
`dch link` sends; and prints the counts as a page in Markdown."""
from __future__ import annotations

import argparse
import itertools
import math
import random
import tomllib
from collections.abc import Iterable, Iterator
from dataclasses import dataclass
from pathlib import Path
from typing import Any

from .config import DIRECTIONS, Configuration, TransportChannel, parts_of, read_configuration, split_input
from .faults import BadInput, run_command
from .node import program_of, report_of
from .timeline import values_of
from .values import GotBits, Phy, PhyNone, Told

HELP = """
A channel's bits are found by their change. Transport blocks of zeros have parity bits and coded bits of zeros. So in a
run in which one channel alone sends other blocks, each channel bit that is a one is that channel's. Blocks at random
reach them all, but for filler and padding, which stay zeros; what is sent beside them tells how many these are. For
such runs each channel gets one transparent bearer, and all combinations but one are blocked. Of two configurations
each has runs of its own, and its part of the page.
"""
REPEATS = 40  # TTIs with blocks at random; in all of them a bit stays zero once in 2^40 times
CODE_BLOCK, TAIL = 504, 8
RATES = {'none': 1, 'half': 2, 'third': 3}
NAMES = {'none': 'none', 'half': '1/2', 'third': '1/3'}


@dataclass(frozen=True)
class Counting:
    """A configuration as a table of TOML, what the tools read of it, and the program."""
    table: dict[str, Any]
    configuration: Configuration
    program: str

    def combinations(self, way: str) -> list[list[int]]:
        found: list[list[int]] = self.table[way + 'link']['combinations']
        return found

    def senders(self, way: str, combination: int) -> list[int]:
        """The channels that send bits in a combination."""
        formats = self.combinations(way)[combination]
        return [at for at, channel in enumerate(self.configuration.channels[way]) if with_parity(channel, formats[at])]


# ---- before rate matching, by the sizes alone

def with_parity(channel: TransportChannel, form: int) -> int:
    count, size = channel.formats[form]
    return count * (size + channel.crc)


def cut(channel: TransportChannel, form: int) -> tuple[int, int]:
    """The code blocks of a TTI, and the bits of each with its filler (TS 25.212 4.2.2)."""
    bits = with_parity(channel, form)
    blocks = math.ceil(bits / CODE_BLOCK) if channel.code != 'none' else min(bits, 1)
    return blocks, math.ceil(bits / blocks) if blocks else 0


def coded(channel: TransportChannel, form: int) -> int:
    """The coded bits of a TTI (TS 25.212 4.2.3)."""
    blocks, size = cut(channel, form)
    return blocks * (size + TAIL) * RATES[channel.code] if channel.code != 'none' else size


def has_filler(channel: TransportChannel, form: int) -> bool:
    blocks, size = cut(channel, form)
    return blocks * size > with_parity(channel, form)


# ---- after it, in the radio frames of runs

def in_toml(value: Any) -> str:
    if isinstance(value, dict):
        return '{ ' + ', '.join(f'{key} = {in_toml(it)}' for key, it in value.items()) + ' }'
    if isinstance(value, list):
        return '[' + ','.join(map(in_toml, value)) + ']'
    if isinstance(value, bool):
        return 'true' if value else 'false'
    return f'"{value}"' if isinstance(value, str) else str(value)


def with_plain_bearers(it: Counting, way: str) -> str:
    """The configuration with a transparent bearer for each channel of a direction, in place of its bearers."""
    channels = range(len(it.configuration.channels[way]))
    bearers = [{'mode': 'tm', way: at, 'priority': 1, 'buffer': 64} for at in channels]
    return ''.join(f'{key} = {in_toml(value)}\n' for key, value in {**it.table, 'bearer': bearers}.items())


def script_of(it: Counting, way: str, combination: int, frames: int) -> Iterator[str]:
    """The lines of a run: for each channel that sends, TTIs in which it has blocks at random and the others zeros."""
    rng, combinations = random.Random(combination), it.combinations(way)
    yield from (f'block {way} {other}' for other in range(len(combinations)) if other != combination)
    for chosen in it.senders(way, combination):
        for frame in range(frames * REPEATS):
            for at, channel in enumerate(it.configuration.channels[way]):
                number, size = channel.formats[combinations[combination][at]]
                if size and frame * 10 % channel.tti == 0:
                    for _ in range(number):
                        yield f'unit {way} {at} {rng.getrandbits(size) if at == chosen else 0:0{size}b}'
            yield 'frame'


def run(it: Counting, way: str, combination: int, frames: int) -> list[str]:
    """The channel bits of the radio frames of a run, in which all that is sent comes over."""
    lines = list(script_of(it, way, combination, frames))
    text = with_plain_bearers(it, way) + '\n'.join(['---', *lines, ''])
    told = report_of(it.program, ['link'], text)
    values: list[Told] = list(values_of(told, 'the report', lambda bearer: True))
    came = sum(isinstance(value, GotBits) for value in values)
    if PhyNone() in values or came != sum(line.startswith('unit ') for line in lines):
        raise BadInput(f'combination {combination} {way} can\'t be sent all the time')
    return [value.cells for value in values if isinstance(value, Phy) and value.direction == way]


@dataclass(frozen=True)
class Counted:
    """The channel bits of a radio frame with a combination, and those of each channel that sends, in each of as many
    radio frames as the longest TTI has."""
    cells: int
    bits: dict[int, list[int]]


def count(it: Counting, way: str, combination: int) -> Counted:
    channels, formats = it.configuration.channels[way], it.combinations(way)[combination]
    frames = max(channel.tti for channel in channels) // 10
    cells, bits = run(it, way, combination, frames), dict[int, list[int]]()
    for number, at in enumerate(it.senders(way, combination)):
        begin = number * frames * REPEATS
        runs = [cells[begin + frame:begin + frames * REPEATS:frames] for frame in range(frames)]
        bits[at] = [sum('1' in column for column in zip(*those)) for those in runs]
    sent = [len(those) - those.count('-') for those in cells[:frames]]
    filled = [at for at in bits if has_filler(channels[at], formats[at])]
    for at in filled:
        # Filler is coded as zeros, which don't change: they are what the other channels leave.
        bits[at] = [sent[frame] - sum(bits[other][frame] for other in bits if other != at) for frame in range(frames)]
    # Bits of the padding of an uplink TTI don't change either, and the first radio frame has none.
    known = range(frames) if way == 'down' else range(min(frames, 1))
    if len(filled) > 1 or any(sent[frame] != sum(bits[at][frame] for at in bits) for frame in known if bits):
        raise BadInput(f'combination {combination} {way}: it can\'t be told which bits are of which channel')
    return Counted(len(cells[0]) if cells else 0, bits)


# ---- the page

def change(before: int, after: int) -> str:
    return f'{before} to {after}, {100 * (after - before) / before:+.1f} %'


def table(head: Iterable[str], rows: Iterable[Iterable[object]]) -> Iterator[str]:
    names = list(head)
    yield from ('| ' + ' | '.join(names) + ' |', '|' + '---|' * len(names))
    for row in rows:
        yield '| ' + ' | '.join(map(str, row)) + ' |'
    yield ''


def channel_rows(channels: list[TransportChannel]) -> Iterator[list[object]]:
    for at, channel in enumerate(channels):
        for form, (number, size) in enumerate(channel.formats):
            if with_parity(channel, form):
                yield [at, f'{channel.tti} ms', NAMES[channel.code], channel.crc, f'{number} x {size}',
                       with_parity(channel, form), coded(channel, form)]


def uplink_rows(it: Counting) -> Iterator[list[object]]:
    """For each combination the bits of each channel in a radio frame."""
    channels = it.configuration.channels['up']
    for combination, formats in enumerate(it.combinations('up')):
        counted = count(it, 'up', combination)
        cells = ['' for _ in channels]
        for at, bits in counted.bits.items():
            before = -(-coded(channels[at], formats[at]) * 10 // channels[at].tti)
            cells[at] = change(before, bits[0])
        if counted.bits:
            yield [f'{combination}: {shown(formats)}', counted.cells, *cells]


def downlink_rows(it: Counting) -> Iterator[list[object]]:
    """For each format of a channel the bits of a TTI, which are the same with each combination."""
    channels = it.configuration.channels['down']
    counts: dict[int, Counted] = {}
    for at, channel in enumerate(channels):
        for form, (number, size) in enumerate(channel.formats):
            first = next((j for j, formats in enumerate(it.combinations('down')) if formats[at] == form), None)
            if first is None or not with_parity(channel, form):
                continue
            if first not in counts:
                counts[first] = count(it, 'down', first)
            bits = counts[first].bits[at]
            after = sum(bits) * channel.tti // (10 * len(bits))
            yield [at, f'{number} x {size}', change(coded(channel, form), after),
                   f'{after * 10 / channel.tti:g}']


def shown(formats: list[int]) -> str:
    return '[' + ','.join(map(str, formats)) + ']'


def page(texts: list[str], configuration: Configuration, name: str, program: str) -> Iterator[str]:
    """The lines of the page: a part for each configuration, and a heading before that of the second one."""
    titles = [f'# {name}', f'## From radio frame {configuration.later[0]}' if configuration.later else '']
    for title, text, part in zip(titles, texts, configuration.parts()):
        yield from (title, '', *comment(text))
        yield from part_of_page(Counting(tomllib.loads(text), part, program), title.split(' ')[0] + '#')


def comment(text: str) -> list[str]:
    """The comment with which a configuration begins, and an empty line behind it."""
    front = itertools.takewhile(lambda line: line.startswith('#'), text.split('\n'))
    lines = [line.removeprefix('#').strip() for line in front]
    return [*lines, ''] if lines else []


def part_of_page(it: Counting, level: str) -> Iterator[str]:
    """The tables of one configuration, under headings of this level."""
    up, down = (it.configuration.channels[way] for way in DIRECTIONS)
    for title, channels in [('Channels', up)] if up == down else [('Uplink channels', up), ('Downlink channels', down)]:
        yield from (f'{level} {title}', '')
        columns = 'Channel', 'TTI', 'Code', 'Parity', 'Blocks', 'Bits with parity', 'Coded bits of a TTI'
        yield from table(columns, channel_rows(channels))
    yield from (f'{level} Uplink', '', 'Bits of a radio frame, before and after rate matching.', '')
    columns = 'Combination', 'Radio frame', *(f'Channel {at}' for at in range(len(up)))
    yield from table(columns, uplink_rows(it))
    cells = it.configuration.places['down'][0]
    about = f'Bits of a TTI, before and after rate matching. A radio frame has {cells} bits.'
    yield from (f'{level} Downlink', '', about, '')
    yield from table(('Channel', 'Blocks', 'Bits of a TTI', 'In a radio frame'), downlink_rows(it))


def main() -> None:
    words = argparse.ArgumentParser('dch-rates', description=__doc__, epilog=HELP,
                                    formatter_class=argparse.RawDescriptionHelpFormatter)
    words.add_argument('configuration', metavar='CONFIGURATION', type=Path,
                       help='a configuration in TOML, or two; what follows a line --- is passed over')
    words.add_argument('--dch', metavar='PROGRAM', help='the program (DCH, or that of this tree)')
    given = words.parse_args()
    text, _ = split_input(given.configuration)
    configuration = read_configuration(text, given.configuration)
    lines = page(parts_of(text)[0], configuration, given.configuration.stem, program_of(given.dch))
    print('\n'.join(lines).rstrip('\n'))


def command() -> None:
    run_command('dch-rates', main)


if __name__ == '__main__':
    command()
