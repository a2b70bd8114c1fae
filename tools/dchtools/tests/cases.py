"""The cases of tests/ and examples/ of this tree, as inputs of nodes."""
from __future__ import annotations

import shlex
from collections.abc import Iterator
from dataclasses import dataclass
from pathlib import Path

top = Path(__file__).resolve().parents[3]


@dataclass(frozen=True)
class Case:
    """A case: its name, its words, its text before the script, the lines of the script, and the answer."""
    name: str
    words: list[str]
    text: str
    script: list[str]
    answer: list[str]

    @property
    def command(self) -> str:
        return self.words[0]

    @property
    def start(self) -> int:
        return int(self.words[self.words.index('--start') + 1]) if '--start' in self.words else 0

    @property
    def is_quiet(self) -> bool:
        return '--quiet' in self.words


def cases_of(*commands: str) -> Iterator[Case]:
    """The cases of these commands whose input is text."""
    for out in sorted([*top.glob('examples/**/*.out'), *top.glob('tests/*/*.out')]):
        rows = dict(row.split(' ', 1) for row in words_of(out.parent) if ' ' in row)
        words = shlex.split(rows.get(out.stem, out.parent.name))
        inputs = [out.with_suffix(end) for end in ('.in', '.txt', '.toml') if out.with_suffix(end).exists()]
        if words[0] not in commands or out.parent.name == 'usage' or not inputs:
            continue
        try:
            text = inputs[0].read_text()
        except UnicodeDecodeError:
            continue
        yield case_of(f'{out.parent.name}/{out.stem}', words, text, out.read_text().splitlines())


def words_of(folder: Path) -> list[str]:
    return (folder / 'words').read_text().splitlines() if (folder / 'words').exists() else []


def case_of(name: str, words: list[str], text: str, answer: list[str]) -> Case:
    lines = text.split('\n')
    if words[0] == 'pair':
        script = [line for line in lines if line]
        return Case(name, words, script[0] if script else '', script[1:], answer)
    end = lines.index('---') if '---' in lines else len(lines)
    return Case(name, words, '\n'.join(lines[:end]), [line for line in lines[end + 1:] if line], answer)
