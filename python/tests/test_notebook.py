"""The notebook of three minutes, run cell by cell."""
import json
import os
import pathlib
import sys
import unittest
from unittest import mock

sys.path.insert(0, str(pathlib.Path(__file__).resolve().parent))
from test_hanskup import TOP, has


def run(path):
    """What the cells of a notebook leave, run one after another in its folder."""
    notebook, made = json.loads(path.read_text()), {}
    before = os.getcwd()
    os.chdir(path.parent)
    try:
        for number, cell in enumerate(notebook['cells']):
            if cell['cell_type'] == 'code':
                exec(compile(''.join(cell['source']), f'{path.name}, cell {number}', 'exec'), made)
    finally:
        os.chdir(before)
    return made


@unittest.skipUnless(has('scipy') and has('gudhi') and has('matplotlib'), 'scipy, gudhi or matplotlib is not installed')
class Notebook(unittest.TestCase):
    def test_three_minutes(self):
        with mock.patch.dict(os.environ, MPLBACKEND='Agg'):
            made = run(TOP / 'python/examples/three-minutes.ipynb')
        self.assertEqual(made['points'].shape, (3000, 3))
        self.assertTrue(made['hollow'].min() < 0.3 < made['hollow'].max())  # one part, two loops, a void
        self.assertTrue(made['solid'].min() < 0.45 < made['solid'].max())  # one part, one loop
        self.assertEqual(made['shape'].parts().max(), 0)
        long = [dimension for dimension, _ in made['bars']]
        self.assertEqual((long.count(1), long.count(2)), (2, 1))
        self.assertEqual(len(made['figure'].axes[0].lines), 3)

    def test_it_is_kept_without_outputs(self):
        for cell in json.loads((TOP / 'python/examples/three-minutes.ipynb').read_text())['cells']:
            self.assertFalse(cell.get('outputs'))


if __name__ == '__main__':
    unittest.main()
