"""Columns of whole numbers as text for a page: planes of bytes, deflated, in base 64."""
import base64
import zlib

import numpy as np


class Pack:
    """Columns put one behind the other; `told` says where each is, for the page."""

    def __init__(self):
        self.told = {}
        self._parts, self._size = [], 0

    def put(self, name, values, steps=False):
        """Adds a column of whole numbers of at most 48 bits; with `steps` each is kept as what it adds to the last."""
        values = np.asarray(values, dtype=np.int64)
        wide = bool(len(values)) and int(np.abs(values).max()) >= 1 << 31  # more than the page's short numbers hold
        if steps:
            values = np.diff(values, prepend=0)
        signed = bool(len(values)) and int(values.min()) < 0
        if signed:
            values = np.where(values < 0, -2 * values - 1, 2 * values)
        most = int(values.max()) if len(values) else 0
        planes = max(1, (most.bit_length() + 7) // 8)
        rows = np.ascontiguousarray(values.astype('<i8').view(np.uint8).reshape(-1, 8)[:, :planes].T)
        self.told[name] = {'at': self._size, 'count': len(values), 'planes': planes, 'steps': steps, 'signed': signed,
                           'wide': wide}
        self._parts.append(rows.tobytes())
        self._size += rows.size

    def text(self):
        """All columns as text of base 64, of what the format zlib makes of them."""
        return base64.b64encode(zlib.compress(b''.join(self._parts), 7)).decode('ascii')
