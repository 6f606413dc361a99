"""The stdin and stdout of crates/dk_checks: first what is of its rows, then, from the first line `run ..` on, of its runs."""
import os

CRATE = os.path.join(os.path.dirname(os.path.dirname(os.path.dirname(os.path.abspath(__file__)))), 'crates', 'dk_checks')
FILES = ('stdin', 'stdout')


def halves(name):
    """The two halves of the file."""
    with open(os.path.join(CRATE, name)) as file:
        lines = file.readlines()
    begin = next((at for at, line in enumerate(lines) if line.startswith('run ')), len(lines))
    return [''.join(lines[:begin]), ''.join(lines[begin:])]


def put(name, half, text):
    """Replaces one half of the file."""
    parts = halves(name)
    parts[half] = text
    with open(os.path.join(CRATE, name), 'w') as file:
        file.write(''.join(parts))
