#!/usr/bin/env python3
"""test_fdb: tries fdb: its words and scripts without a terminal, and its prompt at one; two captures compared; and
each session of it that the documents show.

    tests/test_fdb.py [TEST ..]

FRAMEDBG names another program.
"""
import unittest

import folders

from test_fdb_answers import *  # noqa: F401, F403
from test_fdb_batch import *  # noqa: F401, F403
from test_fdb_diff import *  # noqa: F401, F403
from test_fdb_documents import *  # noqa: F401, F403
from test_fdb_moves import *  # noqa: F401, F403
from test_fdb_targets import *  # noqa: F401, F403
from test_fdb_terminal import *  # noqa: F401, F403
from test_fdb_what_if import *  # noqa: F401, F403

if __name__ == "__main__":
    unittest.main()
