"""Types of the numpy arrays that the records of the package hold."""
import numpy
from numpy.typing import NDArray

Floats = NDArray[numpy.float64]
Wholes = NDArray[numpy.int64]
Bools = NDArray[numpy.bool_]
