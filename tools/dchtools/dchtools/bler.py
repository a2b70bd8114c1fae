"""Measures the block error rate of a configuration's channels against the bit error rate, by runs of `dch link`, or of
`dch soft`, with random bit errors."""
from __future__ import annotations

import argparse
import csv
import math
import random
from collections.abc import Iterator
from dataclasses import dataclass
from pathlib import Path
from typing import Any

from .config import DIRECTIONS, Configuration, TransportChannel, parts_of, read_configuration, split_input
from .events import Flip, OnLeg, Pass, Unit
from .faults import BadInput, run_command
from .iub import read_frame
from .node import program_of, report_of
from .timeline import ticks_of_report, values_of
from .values import Bad, BadTti, Differs, Iub, Told

HELP = """
In each run every channel bit and TFCI bit of the radio frames of one direction is turned over with the same
probability, and the other direction is undamaged. Bearers are offered in each TTI what fills the largest format of
their channel. With --legs N the run is a soft handover of N legs, each with errors of its own. Of two configurations
the first is measured, or with --second the second. Of each channel these blocks are counted:

  bad      parity didn't fit, so the block isn't taken
  badtti   the format of the TTI couldn't be told, in soft handover on no leg
  false    the TTI was taken as good, but isn't what was sent: the only way in which a channel without parity shows
           its errors. In soft handover nothing tells of these

The points go to NAME.csv, and the picture to NAME.png or NAME.svg (it needs matplotlib; --csv-only leaves it out).
The same seed gives the same runs. Full lines of the picture are all errors, and dotted ones those of the format
(badtti).
"""
RATES = (0.01, 0.02, 0.03, 0.04, 0.05, 0.06, 0.08, 0.1, 0.12, 0.14, 0.16, 0.18, 0.2, 0.25)
COLUMNS = ('direction', 'channel', 'bit_error_rate', 'blocks', 'bad', 'badtti', 'false', 'block_error_rate')
Row = tuple[str, int, float, int, int, int, int, str]


@dataclass(frozen=True)
class Measuring:
    """What is measured, and by which runs."""
    text: str
    configuration: Configuration
    way: str
    frames: int
    seed: int
    legs: int | None
    program: str


def errors(rng: random.Random, rate: float, places: int) -> Iterator[int]:
    """The places of a frame that are turned over."""
    if rate <= 0:
        return
    at, scale = -1, math.log1p(-rate)
    while True:
        at += 1 + int(math.log(1 - rng.random()) / scale)
        if at >= places:
            return
        yield at


def units(configuration: Configuration, rng: random.Random, way: str, tick: int) -> Iterator[Unit]:
    """Offers each bearer what fills a TTI that starts now."""
    for bearer in configuration.bearers:
        if way not in bearer.channels or tick * 10 % configuration.channels[way][bearer.channels[way]].tti:
            continue
        count, size = configuration.channels[way][bearer.channels[way]].largest
        if bearer.mode == 'tm':
            for _ in range(count if size else 0):
                yield Unit(bearer.number, f'{rng.getrandbits(size):0{size}b}', way)
        else:
            octets = min(max(count * (size // 8 - 3), 1), 1500)
            yield Unit(bearer.number, rng.randbytes(octets), way)


def script_of(it: Measuring, rate: float) -> Iterator[str]:
    """The lines of a run: the SDUs are the same for each rate."""
    offers, noise = random.Random(it.seed), random.Random(f'{it.seed} {rate}')
    for tick in range(it.frames):
        for unit in units(it.configuration, offers, it.way, tick):
            yield unit.line
        for leg in range(it.legs or 1):
            for part, places in zip('dt', it.configuration.places[it.way]):
                for place in errors(noise, rate, places):
                    flip = Flip(it.way, part, place)
                    yield OnLeg(leg, flip).line if it.legs else flip.line
        yield Pass().line


def run(it: Measuring, rate: float) -> list[tuple[int, Told]]:
    """What a run tells, and when."""
    command = ['link'] if it.legs is None else ['soft', str(it.legs)]
    text = f'{it.text}\n---\n' + ''.join(line + '\n' for line in script_of(it, rate))
    lines = report_of(it.program, command, text)
    told = values_of(lines, 'the report', it.configuration.is_transparent)
    return list(ticks_of_report(it.configuration, command[0], told))


@dataclass
class Count:
    """Blocks of a channel: all that were sent, and what became of them."""
    blocks: int = 0
    bad: int = 0
    badtti: int = 0
    false: int = 0

    @property
    def rate(self) -> float:
        return (self.bad + self.badtti + self.false) / self.blocks if self.blocks else 0.0


@dataclass
class Blocks:
    """How many blocks with bits each channel has in the TTI whose Iub frame comes with a radio frame, and with which
    radio frames the frames of a set come."""
    of: dict[tuple[int, int], int]
    sets: set[tuple[int, int]]


def blocks_sent(it: Measuring, told: list[tuple[int, Told]]) -> Blocks:
    found = Blocks({}, set())
    for tick, value in told:
        if isinstance(value, Iub) and value.direction == it.way:
            found.sets.add((tick, value.set))
            for block in read_frame(it.configuration, it.way, value.set, value.octets).blocks:
                if block.size:
                    found.of[tick, block.channel] = found.of.get((tick, block.channel), 0) + 1
    return found


def count_errors(it: Measuring, told: list[tuple[int, Told]], clean: Blocks) -> list[Count]:
    """Counts by channel. In the uplink a TTI that couldn't be read has the blocks of the run without errors."""
    channels = it.configuration.channels[it.way]
    counts = [Count() for _ in channels]
    sent = blocks_sent(it, told)
    for (_, channel), number in sent.of.items():
        counts[channel].blocks += number
    for tick, value in told:
        if isinstance(value, Bad) and value.direction == it.way:
            counts[value.channel].bad += 1
        elif isinstance(value, Differs) and value.direction == it.way:
            counts[value.channel].false += 1
        elif isinstance(value, BadTti) and value.direction == it.way == 'down':
            start = tick + 1 - channels[value.channel].tti // 10
            counts[value.channel].badtti += sent.of.get((start, value.channel), 0)
    for (tick, channel), number in clean.of.items():
        if it.way == 'up' and (tick, channels[channel].frame_set) not in sent.sets:
            counts[channel].blocks += number
            counts[channel].badtti += number
    return counts


def measure(it: Measuring, rates: list[float]) -> Iterator[Row]:
    """The rows of the points."""
    clean = blocks_sent(it, run(it, 0))
    for rate in rates:
        for channel, count in enumerate(count_errors(it, run(it, rate), clean)):
            if count.blocks:
                yield (it.way, channel, rate, count.blocks, count.bad, count.badtti, count.false, f'{count.rate:.6f}')


def name_of(channel: TransportChannel) -> str:
    count, size = channel.largest
    code = {'none': 'uncoded', 'half': 'rate 1/2', 'third': 'rate 1/3'}[channel.code]
    parity = f'CRC {channel.crc}' if channel.crc else 'no CRC'
    return f'{count} x {size} bits, {code}, {parity}, {channel.tti} ms'


def draw(rows: list[Row], it: Measuring, title: str, picture: Path) -> None:
    try:
        import matplotlib
    except ImportError:
        raise BadInput('no matplotlib is here to draw with; the points are in the .csv') from None
    matplotlib.use('Agg')
    matplotlib.rcParams['svg.hashsalt'] = 'dch'
    from matplotlib import pyplot
    figure, axes = pyplot.subplots(figsize=(8, 5))
    for channel in sorted({row[1] for row in rows}):
        points = [row for row in rows if row[1] == channel]
        rates, name = [point[2] for point in points], name_of(it.configuration.channels[it.way][channel])
        line, = axes.plot(rates, [float(point[7]) or None for point in points], marker='o', markersize=4,
                          label=f'{channel}: {name}')
        axes.plot(rates, [point[5] / point[3] or None for point in points], linestyle=':', color=line.get_color())
    axes.set_yscale('log')
    axes.set_ylim(top=1.3)
    axes.set_xlabel('bit error rate of cells and TFCI bits')
    axes.set_ylabel('block error rate')
    axes.set_title(title)
    axes.grid(True, which='both', alpha=0.3)
    axes.legend(fontsize=8, title='channel (dotted: format not told)', title_fontsize=8)
    figure.tight_layout()
    metadata: Any = {'Date': None} if picture.suffix == '.svg' else None
    figure.savefig(picture, dpi=110, metadata=metadata)


def rates_of(text: str) -> list[float]:
    rates = [float(word) for word in text.split(',')]
    if not all(0 < rate < 1 for rate in rates):
        raise ValueError
    return rates


def words_given() -> argparse.Namespace:
    words = argparse.ArgumentParser('dch-bler', description=__doc__, epilog=HELP,
                                    formatter_class=argparse.RawDescriptionHelpFormatter)
    words.add_argument('configuration', metavar='CONFIGURATION',
                       help='a configuration in TOML, or two; what follows a line --- is passed over')
    words.add_argument('picture', metavar='NAME.png', type=Path)
    words.add_argument('--direction', choices=DIRECTIONS, default='up', help='the damaged direction (%(default)s)')
    words.add_argument('--frames', type=int, default=800, metavar='N', help='radio frames of a run (%(default)s)')
    words.add_argument('--rates', type=rates_of, default=list(RATES), metavar='R,R..', help='bit error rates')
    words.add_argument('--seed', type=int, default=1, metavar='N')
    words.add_argument('--legs', type=int, choices=range(1, 7), metavar='N', help='legs of a soft handover, 1 to 6')
    words.add_argument('--second', action='store_true', help='the second configuration')
    words.add_argument('--csv-only', action='store_true')
    words.add_argument('--dch', metavar='PROGRAM', help='the program (DCH, or that of this tree)')
    return words.parse_args()


def main() -> None:
    given = words_given()
    if given.frames < 8:
        raise BadInput('a run has at least 8 radio frames')
    if given.picture.suffix not in ('.png', '.svg'):
        raise BadInput(f'{given.picture}: its name ends neither in .png nor in .svg')
    text, _ = split_input(given.configuration)
    configuration = read_configuration(text, given.configuration)
    if given.second and not configuration.later:
        raise BadInput(f'{given.configuration}: there is no second configuration')
    it = Measuring(parts_of(text)[0][int(given.second)], configuration.parts()[int(given.second)], given.direction,
                   given.frames, given.seed, given.legs, program_of(given.dch))
    rows = list(measure(it, given.rates))
    if not rows:
        raise BadInput('no block was sent; has the configuration bearers in this direction?')
    with open(given.picture.with_suffix('.csv'), 'w', newline='') as file:
        csv.writer(file, lineterminator='\n').writerows([COLUMNS, *rows])
    if not given.csv_only:
        draw(rows, it, f'{Path(given.configuration).stem}, {given.direction}link', given.picture)


def command() -> None:
    run_command('dch-bler', main)


if __name__ == '__main__':
    command()
