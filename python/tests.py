#!/usr/bin/env python3
"""Tests of the package sgb: python/tests.py [PROGRAM], where PROGRAM is the program sgb, ./sgb if none is named.

Its graphs are compared with what the program writes, also as sgb_graph.py of the examples reads it; with scipy's,
networkx's and igraph's where these are installed. With SGB_WITHOUT_NUMPY=1 the package does without numpy.
"""

import unittest

# the first of them takes the name of the program
from cases import PROGRAM  # noqa: F401
from arrays_tests import Arrays, Runs  # noqa: F401
from convert_tests import Converted, OfNauty  # noqa: F401
from handles_tests import Handles, Python  # noqa: F401
from operations_tests import Operations  # noqa: F401
from others_tests import Others  # noqa: F401
from same_tests import Copied, Forked, Same, Shown  # noqa: F401
from ways_in_tests import Igraph, Networkx, Numpy, Scipy, WaysIn  # noqa: F401

if __name__ == "__main__":
    unittest.main()
