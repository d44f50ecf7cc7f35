#!/usr/bin/env python3
"""test_driver: tries framedbg-driver: its parts, what it draws and tells with Mesa's software renderers, planted
faults, and what the documents show of it.

    tests/test_driver.py [TEST ..]

FRAMEDBG names another program.
"""
import folders

import passed_over
from test_driver_documents import *  # noqa: F401, F403
from test_driver_parts import *  # noqa: F401, F403
from test_driver_runs import *  # noqa: F401, F403

if __name__ == "__main__":
    passed_over.run_tests("test_driver")
