"""What tools/release packs: where it is, whether it is fit to be packed, and the texts that come beside it.

`sources` tells the version, what is committed, and what the checker said of what is built; `texts` makes the man page,
the completions and what finds the library; `archive` lays all of it out and packs it. help.txt is the one text of help,
of which the wrappers, the man page and the completions are made; files/ has what is taken as it stands.
"""
import os
import re
import subprocess

HERE = os.path.dirname(os.path.realpath(__file__))
TOP = os.path.dirname(os.path.dirname(HERE))


class Refused(Exception):
    """Nothing can be packed: a line that says why, and what to do."""


def run(*words, **how):
    """What a command writes. Raises Refused where it is missing or fails."""
    try:
        return subprocess.run(words, cwd=TOP, check=True, capture_output=True, text=True, **how).stdout
    except FileNotFoundError:
        raise Refused(f'{words[0]} is not on the path') from None
    except subprocess.CalledProcessError as failed:
        told = (failed.stderr or failed.stdout).strip().splitlines()
        raise Refused(f'{" ".join(words[:2])}: {told[-1] if told else failed.returncode}') from None


def read(name):
    """A text of the repository."""
    with open(os.path.join(TOP, name), encoding='utf-8') as file:
        return file.read()


def usage():
    """The options of each command, as the first lines of the help have them: `{'mesh': '[--order] ..', ..}`."""
    lines = read('tools/packed/help.txt').split('\n\n')[0].splitlines()
    rows = [re.match(r'(?:usage:)? +delaunay (\S+) (.*)', line).groups() for line in lines]
    return {name: rest for names, rest in rows for name in names.split('|')}


def options(rest):
    """The options in what stands behind a command, in order."""
    return re.findall(r'--[a-z]+', rest)
