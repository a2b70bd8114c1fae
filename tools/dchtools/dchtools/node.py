"""The commands of the program `dch`, driven event by event over pipes.

The program answers a line at once, and doesn't say where an answer ends. So behind each line stands a probe: a line
that changes nothing, with an answer that is known. It is an SDU without a bit, which each bearer finds to be wrong, or
at a node that takes Iub frames two frames that are none."""
from __future__ import annotations

import os
import select
import subprocess
from collections import deque
from collections.abc import Iterable, Sequence
from pathlib import Path
from typing import Literal, overload

from .config import Configuration, read_configuration, transparency
from .events import Change, Ends, Event, Offer, Tick, Unit
from .faults import BadInput, Ended, Refused
from .interface import LinkCalls, NodeBCalls, PairCalls, RncCalls, Teller, UeCalls, first_cfn, whole_text
from .values import Told, value_of

QUIET = 0.2  # seconds without an answer, after which none is expected where no probe can be sent
PROVED = 'crates/dch/out/dch'


def program_of(program: str | Path | None = None) -> str:
    """The program: the one that is named, that of the variable DCH, the proved one of this tree, or that of the
    path."""
    if program or os.environ.get('DCH'):
        return str(program or os.environ['DCH'])
    for above in Path(__file__).resolve().parents:
        if os.access(above / PROVED, os.X_OK):
            return str(above / PROVED)
    return 'dch'


def report_of(program: str, words: Sequence[str], text: str) -> list[str]:
    """The lines with which a command of the program answers a whole input."""
    try:
        done = subprocess.run([program, *words], input=text.encode(), capture_output=True)
    except OSError as fault:
        raise BadInput(f'{program}: {fault.strerror}; name the program by --dch') from None
    lines = done.stdout.decode().splitlines()
    if done.returncode:
        why = lines[-1] if lines else done.stderr.decode().strip()
        raise BadInput(f'dch {words[0]} ended with status {done.returncode}: {why}')
    return lines


class Piped(Teller):
    """A command of the program that runs."""
    command = ''

    def __init__(self, text: str, words: Sequence[str] = (), program: str | Path | None = None) -> None:
        """Starts the command with its first text, which has to be whole: a configuration, or the line `ends`."""
        self.configuration: Configuration | None = None
        self.is_open = False
        path = program_of(program)
        try:
            self.process = subprocess.Popen([path, self.command, *words], stdin=subprocess.PIPE, stdout=subprocess.PIPE,
                                            bufsize=0)
        except OSError as fault:
            raise Ended(None, f'{path}: {fault.strerror or fault}') from None
        self.lines, self.rest = deque[bytes](), b''  # what has come: whole lines, and the front of the next one
        self.is_open = True
        self.write(text)
        line = self.read_line(text.split('\n', 1)[0] if self.command == 'pair' else '')
        if line != 'open':
            raise self.ended(f'the command begins with {line!r}')

    # ---- lines

    def write(self, text: str) -> None:
        assert self.process.stdin
        octets = text.encode()
        try:
            while octets:
                octets = octets[self.process.stdin.write(octets) or 0:]
        except BrokenPipeError:
            pass  # the program has ended, and its answer tells why

    def read_line(self, event: str, seconds: float | None = None) -> str | None:
        """The next line, or None where the program doesn't answer within so many seconds."""
        assert self.process.stdout
        while not self.lines:
            if seconds is not None and not select.select([self.process.stdout], [], [], seconds)[0]:
                return None
            piece = self.process.stdout.read(65536)
            if not piece:
                raise self.ended(f'the program ended at {event[:80]!r}')
            *whole, self.rest = (self.rest + piece).split(b'\n')
            self.lines.extend(whole)
        line = self.lines.popleft().decode()
        if line.startswith('refused '):
            self.close()
            raise Refused.of_line(line, event)
        return line

    def ended(self, text: str) -> Ended:
        self.close()
        return Ended(self.process.returncode, f'{text}, with status {self.process.returncode}')

    def close(self) -> None:
        if self.is_open:
            self.is_open = False
            assert self.process.stdin and self.process.stdout
            self.process.stdin.close()
            self.process.stdout.read()
            self.process.stdout.close()
            self.process.wait()

    # ---- events

    def tell(self, event: Event) -> list[Told]:
        if not self.is_open:
            raise BadInput('the node is closed')
        if '\n' in event.line:
            raise BadInput(f'{event.line[:60]!r} is no line')
        return [self.value(line) for line in self.answer(event)]

    def value(self, line: str) -> Told:
        return value_of(line, transparency(self.configuration))

    def answer(self, event: Event) -> list[str]:
        """The lines that answer an event."""
        if isinstance(event, (Unit, Offer)):
            self.write(event.line + '\n')
            return [self.read_line(event.line) or '']
        lines, probes = self.probe(event)
        self.write('\n'.join([event.line, *lines, '']))
        found: list[str] = []
        while not probes or found[-len(probes):] != probes:
            line = self.read_line(event.line, None if probes else QUIET)
            if line is None:
                return found
            found.append(line)
        return found[:-len(probes)]

    def probe(self, event: Event) -> tuple[list[str], list[str]]:
        """Lines that change nothing, and the answers to them."""
        return [], []


class Configured(Piped):
    """A command with a configuration, or two."""

    def __init__(self, text: str, words: Sequence[str] = (), start: int = 0, program: str | Path | None = None) -> None:
        super().__init__(whole_text(text) + '---\n', [*words, '--start', str(first_cfn(start) // 8)], program)
        try:
            self.configuration = self.active = read_configuration(text, 'the configuration')
        except BadInput:
            self.close()
            raise

    def answer(self, event: Event) -> list[str]:
        if isinstance(event, Change) and self.configuration:
            self.active = self.configuration.parts()[-1]  # by which the probe behind the change is judged
        return super().answer(event)

    def bearer_probe(self, ways: Iterable[str], named: bool) -> tuple[list[str], list[str]]:
        for way in ways:
            for bearer in self.active.bearers:
                if way in bearer.channels:
                    return [f'unit {way + " " if named else ""}{bearer.number} .'], [f'wrong {way} {bearer.number}']
        return [], []

    def iub_probe(self, way: str) -> tuple[list[str], list[str]]:
        at = self.active.sets(way)[0]
        return [f'iub {at} .', f'iub {at} 01'], [f'iubbad {way} {at} 1', f'iubbad {way} {at} 3']


class RncNode(Configured, RncCalls):
    """`dch rnc`: a network controller."""
    command = 'rnc'

    def probe(self, event: Event) -> tuple[list[str], list[str]]:
        return self.iub_probe('up')


class NodeBNode(Configured, NodeBCalls):
    """`dch nodeb`: a Node B."""
    command = 'nodeb'

    def probe(self, event: Event) -> tuple[list[str], list[str]]:
        return self.iub_probe('down')


class UeNode(Configured, UeCalls):
    """`dch ue`: a terminal."""
    command = 'ue'

    def answer(self, event: Event) -> list[str]:
        if isinstance(event, Tick):
            # The radio frame comes last of all.
            self.write(event.line + '\n')
            found = [self.read_line(event.line) or '']
            while not found[-1].startswith('phyup '):
                found.append(self.read_line(event.line) or '')
            return found
        return super().answer(event)

    def probe(self, event: Event) -> tuple[list[str], list[str]]:
        return self.bearer_probe(['up'], False)


class LinkNode(Configured, LinkCalls):
    """`dch link`: a terminal, a Node B and a network controller."""
    command = 'link'

    def probe(self, event: Event) -> tuple[list[str], list[str]]:
        return self.bearer_probe(['up', 'down'], True)


class SoftNode(LinkNode):
    """`dch soft`: a terminal and a network controller with one to six Node Bs."""
    command = 'soft'

    def __init__(self, text: str, legs: int, start: int = 0, program: str | Path | None = None) -> None:
        super().__init__(text, [str(legs)], start, program)


class PairNode(Piped, PairCalls):
    """`dch pair`: two ends of an acknowledged bearer. Its text is the line `ends P Q BUFFER WINDOW`."""
    command = 'pair'

    def __init__(self, text: str | Ends, program: str | Path | None = None) -> None:
        line = text.line if isinstance(text, Ends) else text.rstrip('\n')
        if not line or '\n' in line:
            raise BadInput('pair begins with one line `ends`')
        super().__init__(line + '\n', (), program)

    def probe(self, event: Event) -> tuple[list[str], list[str]]:
        return ['offer a .'], ['wrong a']


@overload
def Node(command: Literal['rnc'], text: str, *, start: int = 0, program: str | Path | None = None) -> RncNode: ...
@overload
def Node(command: Literal['ue'], text: str, *, start: int = 0, program: str | Path | None = None) -> UeNode: ...
@overload
def Node(command: Literal['nodeb'], text: str, *, start: int = 0, program: str | Path | None = None) -> NodeBNode: ...
@overload
def Node(command: Literal['link'], text: str, *, start: int = 0, program: str | Path | None = None) -> LinkNode: ...
@overload
def Node(command: Literal['soft'], text: str, *, legs: int, start: int = 0,
         program: str | Path | None = None) -> SoftNode: ...
@overload
def Node(command: Literal['pair'], text: str, *, program: str | Path | None = None) -> PairNode: ...


def Node(command: str, text: str, *, legs: int | None = None, start: int = 0,
         program: str | Path | None = None) -> Piped:
    """Starts a command of the program: `rnc`, `ue`, `nodeb` or `link` with a configuration, or two with a line `--- N`
    between them; `soft` with 1 to 6 legs; `pair` with its line `ends`. The first CFN is 8 times `start`.

    A configuration that isn't accepted raises `Refused`, and so does an event that can't happen; the node is closed
    then."""
    one: dict[str, type[Configured]] = {'rnc': RncNode, 'ue': UeNode, 'nodeb': NodeBNode, 'link': LinkNode}
    if command in one:
        return one[command](text, (), start, program)
    if command == 'soft' and legs is not None:
        return SoftNode(text, legs, start, program)
    if command == 'pair':
        return PairNode(text, program)
    raise BadInput(f'{command!r} is no command that has nodes' if legs is None else 'soft alone has legs')
