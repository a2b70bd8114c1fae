"""Inputs and reports of `dch` as values, and what happened when: radio frames of 10 ms, counted from 0."""
from __future__ import annotations

from collections.abc import Callable, Iterable, Iterator
from dataclasses import dataclass
from pathlib import Path
from typing import TypeVar, Union

from .config import Configuration, Line, read_configuration, split_input, transparency
from .events import Change, Event, Flip, Lose, LoseIub, MissPhy, OnLeg, Pass, Spoil, TakePhy, Tick, Unit, event_of
from .faults import BadInput, read_text
from .values import (Bad, BadTti, Differs, End, EndFull, EndGot, EndOutside, EndOverlong, EndPduBad, EndRestart,
                     EndSent, EndTook, EndWrong, Full, Got, GotBits, Iub, IubBad, Leg, NoBearer, Nobody, Open, Outside,
                     Overlong, PduBad, Phy, PhyNone, Plain, Reserved, Told, Took, Wrong, value_of)

T = TypeVar('T')

OF_BEARER = (Took, Full, Wrong, Got, GotBits, PduBad, Outside, Overlong)
OF_CHANNEL = (BadTti, Bad, Reserved, NoBearer, Nobody, Differs)
OF_SET = (Iub, IubBad)
OF_END = (EndTook, EndFull, EndWrong, EndSent, EndRestart, EndOutside, EndPduBad, EndOverlong, EndGot)


@dataclass(frozen=True)
class Run:
    """What `dch` was given, and what it answered."""
    configuration: Configuration | None  # None of pair, which has none
    script: list[tuple[int, Event]]      # with the number of the line in the input
    told: list[Told]
    command: str


@dataclass(frozen=True)
class Moment:
    """An event of the script or a value of the report, in the radio frame in which it comes, and the leg that it is of;
    the configuration is the one that is active then."""
    tick: int
    what: Union[Event, Plain]
    leg: int | None
    from_script: bool
    configuration: Configuration


def read_run(input_path: str | Path, report_path: str | Path) -> Run:
    """An input with the report on it."""
    lines = [line for line in read_text(report_path).split('\n') if line]
    if lines[:1] != ['open']:
        first = lines[0][:60] if lines else ''
        raise BadInput(f'{report_path}: this is no report of a node: its first line is {first!r} and not open')
    configuration, script = read_input(input_path)
    told = list(values_of(lines, report_path, transparency(configuration)))
    return Run(configuration, script, told, command_of(told, configuration))


def read_input(path: str | Path) -> tuple[Configuration | None, list[tuple[int, Event]]]:
    """The configuration (none of `pair`, whose first line is `ends`) and the events of an input."""
    text, script = split_input(path)
    if text.lstrip('\n').startswith('ends '):
        script = [Line(number, line) for number, line in enumerate(text.split('\n'), 1) if line]
        return None, [(line.number, checked(event_of, line.text, path, line.number)) for line in script]
    configuration = read_configuration(text, path)

    def event(line: str) -> Event:
        return event_of(line, configuration.is_transparent)
    return configuration, [(line.number, checked(event, line.text, path, line.number)) for line in script]


def values_of(lines: list[str], path: str | Path, is_transparent: Callable[[int], bool]) -> Iterator[Told]:
    """The values of a report, up to a line that refuses something."""
    for number, line in enumerate(lines, 1):
        if line.startswith('refused '):
            return

        def value(text: str) -> Told:
            return value_of(text, is_transparent)
        yield checked(value, line, path, number)


def checked(read: Callable[[str], T], line: str, path: str | Path, number: int) -> T:
    try:
        return read(line)
    except BadInput:
        raise BadInput(f'{path}, line {number}: {line[:60]!r} is no line of dch') from None


def command_of(told: Iterable[Told], configuration: Configuration | None) -> str:
    """The command that wrote a report, by the frames that are in it."""
    if configuration is None:
        return 'pair'
    kinds = {type(it) for it in told}
    ways = {it.direction for it in told if isinstance(it, Phy)} | ({'down'} if PhyNone in kinds else set())
    if Leg in kinds and 'up' in ways:
        return 'soft'
    if ways:
        return {'up': 'ue', 'down': 'nodeb'}.get(ways.pop(), '') if len(ways) == 1 else 'link'
    if Iub in kinds:
        return 'rnc'
    raise BadInput('the report has no frames; run dch without --quiet')


def moments_of(run: Run) -> list[Moment]:
    """What a run with a configuration was told and what it answered, in order of time."""
    if run.configuration is None:
        raise BadInput('this is a run of pair, which has no configuration')
    found, active = [], run.configuration
    is_whole = run.command in ('link', 'soft')
    for tick, event in ticks_of_script([event for _, event in run.script]):
        # A node alone goes over to a second configuration by a line of its script.
        active = run.configuration.at(tick) if is_whole or isinstance(event, Change) else active
        if isinstance(event, OnLeg):
            found.append(Moment(tick, event.damage, event.leg, True, active))
        else:
            found.append(Moment(tick, event, None, True, active))
    for tick, told in ticks_of_report(run.configuration, run.command, run.told):
        if isinstance(told, Leg):
            found.append(Moment(tick, told.told, told.leg, False, run.configuration.at(tick)))
        else:
            found.append(Moment(tick, told, None, False, run.configuration.at(tick)))
    for moment in found:
        check_numbers(run.command, moment)
    return sorted(found, key=lambda moment: moment.tick)


def check_numbers(command: str, moment: Moment) -> None:
    """The bearer, channel or set that a line is about has to be there."""
    it, configuration = moment.what, moment.configuration
    if isinstance(it, Unit):
        if it.direction and command in ('link', 'soft'):
            check_bearer(configuration, it.direction, it.bearer)
    elif isinstance(it, (LoseIub, Spoil, Iub, IubBad)):
        configuration.of_set(it.direction, it.set)
    elif isinstance(it, OF_BEARER):
        check_bearer(configuration, it.direction, it.bearer)
    elif isinstance(it, OF_CHANNEL) and it.channel >= len(configuration.channels[it.direction]):
        raise BadInput(f'the report is not of this input: there is no channel {it.channel} {it.direction}')
    elif isinstance(it, OF_END):
        raise BadInput('the report is not of this input: it is one of pair')


def check_bearer(configuration: Configuration, way: str, number: int) -> None:
    if number >= len(configuration.bearers) or way not in configuration.bearers[number].channels:
        raise BadInput(f'the configuration has no bearer {number} {way}')


def ticks_of_script(events: list[Event]) -> Iterator[tuple[int, Event]]:
    """Each event that isn't itself the passing of time, and the radio frames before it."""
    tick, has_ticks = 0, any(isinstance(event, Tick) for event in events)
    for event in events:
        if isinstance(event, Pass):
            tick += event.count
        elif isinstance(event, Tick):
            tick += 1
        else:
            yield tick, event
            tick += isinstance(event, (TakePhy, MissPhy)) and not has_ticks


def ticks_of_report(configuration: Configuration, command: str, told: Iterable[Told]) -> Iterator[tuple[int, Told]]:
    """Each value, and the radio frames before it."""
    some = [it for it in told if not isinstance(it, (Open, End))]
    return ticks_of_all(some) if command in ('link', 'soft') else ticks_of_one(command, some)


def ticks_of_all(told: Iterable[Told]) -> Iterator[tuple[int, Told]]:
    """Of nodes that run together: a radio frame ends after the uplink radio frame and what it leads to."""
    passed = 0
    for it in told:
        inner = it.told if isinstance(it, Leg) else it
        is_frame = isinstance(inner, Phy) and inner.direction == 'up'
        is_late = getattr(inner, 'direction', 'down') == 'up' and not isinstance(inner, (Took, Full, Wrong, Phy))
        yield passed - is_late, it
        passed += is_frame


def ticks_of_one(command: str, told: Iterable[Told]) -> Iterator[tuple[int, Told]]:
    """Of a node alone: the frames have their time, and what else is told has that of the last of these."""
    tick = passed = 0
    last: tuple[int, int] | None = None  # a CFN, and the radio frame that had it
    for it in told:
        if isinstance(it, (Phy, PhyNone)):
            tick, passed = passed, passed + 1
        elif isinstance(it, Iub) and command == 'rnc' and len(it.octets) > 1:
            cfn = it.octets[1]
            tick = max(tick, last[1] + (cfn - last[0]) % 256) if last else tick
            last = cfn, tick
        yield tick, it


def damage_text(event: Flip | Lose | LoseIub | Spoil) -> str:
    """Damage as the table of a run shows it."""
    if isinstance(event, Flip):
        return 'TFCI bits' if event.part == 't' else 'channel bits'
    if isinstance(event, Lose):
        return 'radio frame'
    return 'Iub frame' if isinstance(event, LoseIub) else f'Iub octet {event.octet} ^ {event.mask:02x}'
