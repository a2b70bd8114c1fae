"""What goes wrong, as exceptions; and how a command of this package ends where its input is bad."""
from __future__ import annotations

import sys
from collections.abc import Callable
from pathlib import Path


class BadInput(Exception):
    """What a tool was given isn't what it can work on; its text is for the user."""


class Refused(Exception):
    """The program or the library refused a configuration, a line or a call, and nothing has changed.

    `number` is that of docs/FORMATS.md (10 to 40 a configuration, 50 a line); `words` are those behind it, as
    `('second', 'bearer=4')`; `event` is the line that was refused, where it was one."""

    def __init__(self, number: int, words: tuple[str, ...] = (), event: str = '') -> None:
        self.number, self.words, self.event = number, words, event
        told = ' '.join(['refused', str(number), *words])
        super().__init__(f'{told}: {event[:80]}' if event else told)

    @staticmethod
    def of_line(line: str, event: str = '') -> Refused:
        """The refusal that a line `refused N ..` tells. Of a line of a script the number of the line is left out."""
        _, number, *words = line.split(' ')
        kept = [word for word in words if not (event and word.startswith('line='))]
        return Refused(int(number), tuple(kept), event)


class Ended(Exception):
    """The program ended, or can't be started; the status is that of docs/FORMATS.md."""

    def __init__(self, status: int | None, text: str) -> None:
        super().__init__(text)
        self.status = status


def run_command(name: str, main: Callable[[], None]) -> None:
    """Runs a command: status 2 and one line of explanation where its input is bad."""
    try:
        main()
    except (BadInput, Ended, Refused) as fault:
        sys.exit(complain(name, str(fault)))
    except BrokenPipeError:
        sys.stderr.close()
        sys.exit(2)
    except OSError as fault:
        sys.exit(complain(name, f'{fault.filename or "input"}: {fault.strerror or fault}'))


def complain(name: str, text: str) -> int:
    print(f'{name}: {text}', file=sys.stderr)
    return 2


def read_text(path: str | Path) -> str:
    """A text file, or standard input where the path is `-`."""
    octets = sys.stdin.buffer.read() if str(path) == '-' else Path(path).read_bytes()
    try:
        return octets.decode()
    except UnicodeDecodeError:
        raise BadInput(f'{path}: this is no text') from None


def octets_of(text: str, where: str) -> bytes:
    try:
        return b'' if text == '.' else bytes.fromhex(text)
    except ValueError:
        raise BadInput(f'{where}: {text[:40]!r} is no hexadecimal') from None


def number_of(text: str, where: str) -> int:
    if not text.isascii() or not text.isdigit():
        raise BadInput(f'{where}: {text[:40]!r} is no number')
    return int(text)
