"""Runs the examples in the docstrings of the package."""
import doctest
import importlib
import pathlib
import unittest

import numpy as np

import hanskup

FEWEST = 30  # examples


class Docstrings(unittest.TestCase):
    def test_examples(self):
        tried = 0
        for path in sorted(pathlib.Path(hanskup.__file__).parent.glob('*.py')):
            module = importlib.import_module('hanskup' if path.stem == '__init__' else f'hanskup.{path.stem}')
            told = doctest.testmod(module, extraglobs={'np': np})
            self.assertEqual(told.failed, 0, path.stem)
            tried += told.attempted
        self.assertGreaterEqual(tried, FEWEST)


if __name__ == '__main__':
    unittest.main()
