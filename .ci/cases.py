"""The cases of tests/ and examples/, for the scripts beside this one. A case has its input in NAME.in (an example: NAME.txt or NAME.toml), the answer
in NAME.out and the status in NAME.status (none: 0). Its words are the command that its folder is named after, or stand behind its name in the
folder's table `words`, quoted for a shell."""
import shlex
from pathlib import Path

top = Path(__file__).resolve().parent.parent


def words_of(file):
    """The words of a case of which this is a file."""
    rows = dict(row.split(' ', 1) for row in (file.parent / 'words').read_text().splitlines() if ' ' in row) if (file.parent / 'words').exists() else {}
    return shlex.split(rows.get(file.stem, file.parent.name))


def case(name):
    """The words and the input of a case, as `link/speech_flipped`, or of an example, as `examples/nodeb` or `examples/radio_bearers/packet_8`."""
    out = top / (name + '.out' if name.startswith('examples/') else f'tests/{name}.out')
    inputs = [out.with_suffix(end) for end in ('.in', '.txt', '.toml') if out.with_suffix(end).exists()]
    return words_of(out), inputs[0].read_bytes()


def answer_of(name):
    """The answer of a case or an example."""
    return (top / (name + '.out' if name.startswith('examples/') else f'tests/{name}.out')).read_bytes()


def cases_of(*commands):
    """The names of all cases and examples of these commands."""
    for out in sorted([*top.glob('examples/**/*.out'), *top.glob('tests/*/*.out')]):
        if out.parent.name != 'usage' and words_of(out)[0] in commands:
            yield str(out.relative_to(top).with_suffix('')).removeprefix('tests/')
