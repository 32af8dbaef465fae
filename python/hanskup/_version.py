"""The version: the newest heading of the repository's CHANGELOG.md. In a wheel a constant stands in its place."""
import pathlib
import re

_CHANGES = pathlib.Path(__file__).resolve().parents[2] / 'CHANGELOG.md'


def _newest(changes: str) -> str:
    """The version of a text of changes, as `0.6`; as `0.6.dev0` where it is not closed."""
    found = re.search(r'^## (\d+(?:\.\d+)+)(, not closed)?', changes, re.M)
    if not found:
        raise ValueError('CHANGELOG.md has no heading with a version')
    return found[1] + ('.dev0' if found[2] else '')


__version__ = _newest(_CHANGES.read_text(encoding='utf-8')) if _CHANGES.exists() else '0+unknown'
