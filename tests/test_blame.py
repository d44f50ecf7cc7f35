#!/usr/bin/env python3
"""test_blame: tries framedbg-blame: its parts, each kind of change, the hunts, its report, its statuses, and what
the documents show of it.

    tests/test_blame.py [TEST ..]

FRAMEDBG names another program.
"""
import folders

import passed_over
from test_blame_documents import *  # noqa: F401, F403
from test_blame_drivers import *  # noqa: F401, F403
from test_blame_kinds import *  # noqa: F401, F403
from test_blame_parts import *  # noqa: F401, F403
from test_blame_points import *  # noqa: F401, F403
from test_blame_runs import *  # noqa: F401, F403

if __name__ == "__main__":
    passed_over.run_tests("test_blame")
