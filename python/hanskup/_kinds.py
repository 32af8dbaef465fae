"""The numbers that tell kinds, and the types of arrays."""
from typing import Any

import numpy as np
import numpy.typing as npt

SINGULAR = 0  #: no cell around the face is admitted
REGULAR = 1  #: some are
INTERIOR = 2  #: all are

POINT, CELL, BEYOND_HULL = 0, 1, 2  #: kinds of Located

Ints = npt.NDArray[np.int64]
Rows = npt.NDArray[np.integer[Any]]  #: of int32, or of int64 where the numbers take it
Floats = npt.NDArray[np.float64]
Bools = npt.NDArray[np.bool_]
Words = npt.NDArray[np.str_]
Numbers = npt.NDArray[Any]
ArrayLike = npt.ArrayLike
