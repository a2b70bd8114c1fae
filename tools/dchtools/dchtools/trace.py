"""Shows a run of `dch link`, `soft` or `pair` as a table, and the sequence numbers of its acknowledged bearers as
charts."""
from __future__ import annotations

import argparse
from collections.abc import Callable, Iterable, Iterator
from dataclasses import dataclass, field

from .config import Configuration
from .events import AtEnd, Event, Flip, Lose, LoseIub, Offer, Spoil, Unit
from .faults import BadInput, run_command
from .iub import REASONS, BadFrame, read_frame
from .rlc import DataPdu, Pdu, ResetPdu, StatusPdu, bearer_of, read_pdu
from .timeline import Moment, Run, damage_text, moments_of, read_run
from .values import (Bad, BadTti, Data, Differs, EndFull, EndGot, EndOutside, EndOverlong, EndPduBad, EndRestart,
                     EndSent, EndTook, EndWrong, Full, Got, GotBits, Iub, IubBad, NoBearer, Nobody, Outside, Overlong,
                     PduBad, Plain, Reserved, Told, Took, Wrong)

HELP = """
INPUT is what dch link, soft or pair got and REPORT what it answered without --quiet. The table has a row for each
radio frame, direction and bearer with which something happened; of pair a row for each line of the input and the end
at which SDUs were offered (`a` or `b`):

  offered       SDUs that were offered and taken; full and wrong are SDUs that weren't
  sent          sequence numbers of RLC data PDUs (an asterisk: seen or asked for before; P: with a poll), or the
                blocks of a transparent bearer; RESET and RESET ACK with their RSN
  lost          what was lost or damaged on the way, and what couldn't be read or taken. Damage to a radio frame
                concerns all bearers; `leg K` is before what happened on one leg of a soft handover
  asked again   numbers that a status names as missing, and up to which one it acknowledges (A); the row is that of
                the data, not of the status
  handed up     SDUs that were handed up

What is sent upwards is what the Node B read and passed on in Iub frames, in soft handover combined: of a radio frame
that no leg could read no numbers are known.

In a chart time runs to the right, a column for one or more radio frames (of pair: lines), and numbers upwards: o
sent, * sent again, ? asked for again, - acknowledged up to here.
"""
COLUMNS = ('offered', 'sent', 'lost', 'asked again', 'handed up')
ALL = -1
OTHER = {'up': 'down', 'down': 'up', 'a': 'b', 'b': 'a'}
SIGNS = '-o?*'
Mark = tuple[int, int, str]


@dataclass
class Table:
    """The cells of the table, and of each acknowledged bearer and direction what its chart shows. A side is a
    direction, or an end of `pair`."""
    rows: dict[tuple[int, str, int], dict[str, list[str]]] = field(default_factory=dict)
    marks: dict[tuple[int, str], list[Mark]] = field(default_factory=dict)
    known: dict[tuple[int, str], set[int]] = field(default_factory=dict)  # numbers that were sent or asked for

    def put(self, tick: int, side: str, bearer: int, column: str, text: str) -> None:
        """Adds to a cell; the bearer ALL stands for each one of the direction."""
        self.rows.setdefault((tick, side, bearer), {}).setdefault(column, []).append(text)

    def mark(self, tick: int, side: str, bearer: int, number: int, sign: str) -> None:
        self.marks.setdefault((bearer, side), []).append((tick, number, sign))

    def pdus(self, tick: int, side: str, bearer: int, mode: str, pdus: list[Pdu | None]) -> None:
        """RLC PDUs that were sent from a side."""
        data = [pdu for pdu in pdus if isinstance(pdu, DataPdu)]
        before = self.known.setdefault((bearer, side), set())
        again = {pdu.number for pdu in data if mode == 'am' and pdu.number in before}
        if data:
            numbers = ranges([pdu.number for pdu in data], again)
            self.put(tick, side, bearer, 'sent', numbers + (' P' if any(pdu.poll for pdu in data) else ''))
        for pdu in data:
            if mode == 'am':
                self.mark(tick, side, bearer, pdu.number, '*' if pdu.number in again else 'o')
            before.add(pdu.number)
            before.discard((pdu.number + 2048) % 4096)
        for other in pdus:
            if isinstance(other, StatusPdu):
                self.status(tick, OTHER[side], bearer, other)
            elif isinstance(other, ResetPdu):
                self.put(tick, side, bearer, 'sent', f'RESET{" ACK" if other.is_answer else ""} {other.number}')

    def status(self, tick: int, side: str, bearer: int, status: StatusPdu) -> None:
        """A status on the data of a side."""
        text = [ranges(status.missing, set())] if status.missing else []
        if status.acknowledged is not None:
            text.append(f'A{status.acknowledged}')
            self.mark(tick, side, bearer, status.acknowledged, '-')
        for number in status.missing:
            self.mark(tick, side, bearer, number, '?')
            self.known.setdefault((bearer, side), set()).add(number)
        self.put(tick, side, bearer, 'asked again', ' '.join(text))


class LinkTable(Table):
    """The table of a run of link or soft."""

    def __init__(self, run: Run) -> None:
        super().__init__()
        self.offers: list[tuple[int, str, int, Data]] = []
        for moment in moments_of(run):
            self.configuration: Configuration = moment.configuration
            if moment.from_script:
                self.event(moment)
            else:
                self.told(moment)

    def event(self, moment: Moment) -> None:
        """A line of the script."""
        it, tick = moment.what, moment.tick
        if isinstance(it, Unit):
            self.offers.append((tick, it.direction or '', it.bearer, it.data))
        elif isinstance(it, (Lose, Flip)):
            self.put(tick, it.direction, ALL, 'lost', of_leg(moment, damage_text(it)))
        elif isinstance(it, (LoseIub, Spoil)):
            self.of_set(tick, it.direction, it.set, of_leg(moment, damage_text(it)))

    def told(self, moment: Moment) -> None:
        """A line of the report."""
        it, tick = moment.what, moment.tick
        if isinstance(it, Iub):
            if moment.leg is None:
                self.frame(tick, it)
        elif isinstance(it, (Took, Full, Wrong)):
            self.offered(tick, type(it).__name__.lower(), it.direction, it.bearer)
        elif isinstance(it, (Got, GotBits)):
            data = it.bits if isinstance(it, GotBits) else it.octets
            self.put(tick, it.direction, it.bearer, 'handed up', shown(data))
        elif isinstance(it, (PduBad, Outside, Overlong)):
            self.put(tick, it.direction, it.bearer, 'lost', pdu_text(it))
        elif isinstance(it, IubBad):
            text = f'Iub frame refused: {REASONS.get(it.number, str(it.number))}'
            self.of_set(tick, it.direction, it.set, of_leg(moment, text))
        elif isinstance(it, (BadTti, Bad, Differs, Reserved, NoBearer, Nobody)):
            self.of_channel(tick, it.direction, it.channel, of_leg(moment, CHANNEL_TEXTS[type(it)]))

    def offered(self, tick: int, answer: str, way: str, bearer: int) -> None:
        """The next offer of the script, answered."""
        for i, offer in enumerate(self.offers):
            if offer[:3] == (tick, way, bearer):
                text = shown(self.offers.pop(i)[3])
                self.put(tick, way, bearer, 'offered', text if answer == 'took' else f'{answer}: {text}')
                return

    def of_set(self, tick: int, way: str, frame_set: int, text: str) -> None:
        for member in self.configuration.of_set(way, frame_set):
            self.of_channel(tick, way, member, text)

    def of_channel(self, tick: int, way: str, channel: int, text: str) -> None:
        for bearer in self.configuration.on(way, channel):
            self.put(tick, way, bearer.number, 'lost', text)

    def frame(self, tick: int, it: Iub) -> None:
        """An Iub frame as it was sent, and the PDUs in it."""
        way = it.direction
        try:
            blocks = read_frame(self.configuration, way, it.set, it.octets).blocks
        except BadFrame as fault:
            self.of_set(tick, way, it.set, f'Iub frame: {fault}')
            return
        found: dict[int, list[tuple[int, bytes]]] = {}
        for block in blocks:
            taken = None if block.bad else bearer_of(self.configuration, way, block)
            if taken:
                found.setdefault(taken[0].number, []).append((block.size, taken[1]))
        for number, some in found.items():
            mode = self.configuration.bearers[number].mode
            if mode == 'tm':
                size = f'{some[0][0]} bits'
                self.put(tick, way, number, 'sent', f'{len(some)} x {size}' if len(some) > 1 else size)
            else:
                self.pdus(tick, way, number, mode, [read_pdu(mode, pdu) for _, pdu in some])


CHANNEL_TEXTS: dict[type, str] = {BadTti: 'TTI not read', Bad: 'block not taken', Differs: 'false block',
                                  Reserved: 'reserved', NoBearer: 'nobearer', Nobody: 'nobody'}


class PairTable(Table):
    """The table of a run of pair: a tick is a line of the input, and what an end told at it is in its row."""

    def __init__(self, run: Run) -> None:
        super().__init__()
        told, at = run.told, 1  # behind `open`
        for number, event in run.script[1:]:
            self.line(number, event)
            while at < len(told) and belongs(event, told[at]):
                self.told(number, told[at], event)
                at += 1
                if isinstance(event, Offer):
                    break

    def line(self, number: int, event: Event) -> None:
        if isinstance(event, AtEnd) and event.what == 'lose':
            self.put(number, OTHER[event.end], 0, 'lost', 'PDU')

    def told(self, number: int, it: Told, event: Event) -> None:
        if isinstance(it, (EndTook, EndFull, EndWrong)) and isinstance(event, Offer):
            answer = {EndTook: '', EndFull: 'full: ', EndWrong: 'wrong: '}[type(it)]
            self.put(number, it.end, 0, 'offered', answer + shown(event.octets))
        elif isinstance(it, EndSent):
            self.pdus(number, it.end, 0, 'am', [read_pdu('am', it.octets)])
        elif isinstance(it, EndGot):
            self.put(number, OTHER[it.end], 0, 'handed up', shown(it.octets))
        elif isinstance(it, EndRestart):
            self.put(number, it.end, 0, 'lost', 'begins anew')
        elif isinstance(it, (EndOutside, EndPduBad, EndOverlong)):
            text = {EndOutside: 'outside', EndOverlong: 'overlong'}.get(type(it), '')
            self.put(number, OTHER[it.end], 0, 'lost', text or f'pdubad {getattr(it, "number")}')


def belongs(event: Event, it: Told) -> bool:
    """Whether an end tells this of an event: each line of pair is answered by its own kinds, at its own end."""
    kinds: dict[str, tuple[type, ...]] = {
        'build': (EndSent,), 'arrive': (EndRestart, EndOutside, EndPduBad, EndGot, EndOverlong)}
    if isinstance(event, Offer):
        return isinstance(it, (EndTook, EndFull, EndWrong))
    return isinstance(event, AtEnd) and isinstance(it, kinds.get(event.what, ())) and getattr(it, 'end') == event.end


def of_leg(moment: Moment, text: str) -> str:
    return text if moment.leg is None else f'leg {moment.leg}: {text}'


def pdu_text(it: Plain) -> str:
    return f'pdubad {it.number}' if isinstance(it, PduBad) else type(it).__name__.lower()


def shown(data: Data) -> str:
    """An SDU: its length, and its beginning."""
    if not data:
        return 'empty'
    text = data if isinstance(data, str) else data.hex()
    length = f'{len(data)} bits' if isinstance(data, str) else f'{len(data)} octets'
    return f'{length} {text[:12]}{".." if len(text) > 12 else ""}'


def ranges(numbers: Iterable[int], again: set[int]) -> str:
    """Numbers as ranges, in the order in which they come; with an asterisk where they are sent again."""
    found: list[list[int]] = []
    for number in numbers:
        if found and number == (found[-1][1] + 1) % 4096 and (number in again) == (found[-1][0] in again):
            found[-1][1] = number
        else:
            found.append([number, number])
    return ' '.join((str(a) if a == b else f'{a}-{b}') + ('*' if a in again else '') for a, b in found)


def table_of(table: Table, configuration: Configuration | None, wanted: Callable[[int], bool]) -> Iterator[list[str]]:
    """The rows of the table as lists of texts."""
    yield [*(('frame', 'dir', 'bearer') if configuration else ('line', 'end')), *COLUMNS]
    last = None
    for (tick, side, bearer), cells in sorted(table.rows.items()):
        if not wanted(bearer):
            continue
        texts = [', '.join(counted(cells.get(column, []))) for column in COLUMNS]
        head = ['' if tick == last else str(tick), side]
        if configuration:
            head.append('all' if bearer == ALL else f'{bearer} {configuration.bearers[bearer].mode}')
        yield [*head, *texts]
        last = tick


def counted(texts: list[str]) -> list[str]:
    """Texts with how often each one comes, where it is more than once."""
    return [text if texts.count(text) == 1 else f'{texts.count(text)} x {text}' for text in dict.fromkeys(texts)]


def print_table(rows: list[list[str]]) -> None:
    widths = [min(max(len(row[i]) for row in rows), 44) for i in range(len(rows[0]))]
    for row in rows:
        cut = [text if len(text) <= width else text[:width - 2] + '..' for text, width in zip(row, widths)]
        cells = [text.rjust(width) if i == 0 else text.ljust(width) for i, (text, width) in enumerate(zip(cut, widths))]
        print('  '.join(cells).rstrip())


def print_chart(found: list[Mark], width: int, height: int, unit: str) -> None:
    """The marks of a bearer in a direction: triples of a radio frame, a number and a sign."""
    marks = unwrapped(found)
    first, last = min(m[0] for m in marks), max(m[0] for m in marks)
    low, high = min(m[1] for m in marks), max(m[1] for m in marks)
    across, up = -(-(last - first + 1) // width), -(-(high - low + 1) // height)
    grid: dict[tuple[int, int], str] = {}
    for tick, number, sign in marks:
        place = (number - low) // up, (tick - first) // across
        if SIGNS.index(sign) >= SIGNS.index(grid.get(place, '-')):
            grid[place] = sign
    margin, columns = len(str(high)), (last - first) // across + 1
    for row in range((high - low) // up, -1, -1):
        line = ''.join(grid.get((row, column), ' ') for column in range(columns)).rstrip()
        print(f'{(low + row * up) % 4096:>{margin}} |{line}')
    print(' ' * margin + ' +' + '-' * columns)
    ends = f'{first}{str(last).rjust(columns - len(str(first)))}' if columns > len(f'{first}{last}') else str(first)
    print(' ' * margin + f'  {ends}  {unit}' + (f', {across} in a column' if across > 1 else ''))


def unwrapped(marks: list[Mark]) -> list[Mark]:
    """The numbers without the wrap at 4096."""
    found, last = [], marks[0][1]
    for tick, number, sign in marks:
        last += (number - last + 2048) % 4096 - 2048
        found.append((tick, last, sign))
    return found


def main() -> None:
    words = argparse.ArgumentParser('dch-trace', description=__doc__, epilog=HELP,
                                    formatter_class=argparse.RawDescriptionHelpFormatter)
    words.add_argument('input', metavar='INPUT')
    words.add_argument('report', metavar='REPORT')
    words.add_argument('--bearer', type=int, metavar='B', help='this bearer alone, and what concerns all')
    words.add_argument('--width', type=int, default=100, metavar='N', help='the most columns of a chart (%(default)s)')
    words.add_argument('--height', type=int, default=20, metavar='N', help='the most rows of a chart (%(default)s)')
    given = words.parse_args()
    if given.width < 1 or given.height < 1:
        raise BadInput('a chart has at least one column and one row')
    run = read_run(given.input, given.report)
    if run.command not in ('link', 'soft', 'pair'):
        raise BadInput(f'{given.report}: this is a report of {run.command}, and not of link, soft or pair')
    bearers = len(run.configuration.bearers) if run.configuration else 1
    if given.bearer is not None and not 0 <= given.bearer < bearers:
        raise BadInput(f'there is no bearer {given.bearer}')
    table = LinkTable(run) if run.configuration else PairTable(run)

    def wanted(bearer: int) -> bool:
        return given.bearer is None or bearer in (ALL, given.bearer)
    print_table(list(table_of(table, run.configuration, wanted)))
    for (bearer, side), marks in sorted(table.marks.items()):
        if wanted(bearer):
            name = f'bearer {bearer}, {side}' if run.configuration else f'SDUs of {side}'
            print(f'\n{name}: o sent, * sent again, ? asked for again, - acknowledged up to here')
            print_chart(marks, given.width, given.height, 'radio frames' if run.configuration else 'lines')


def command() -> None:
    run_command('dch-trace', main)


if __name__ == '__main__':
    command()
