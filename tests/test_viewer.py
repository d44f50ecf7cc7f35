#!/usr/bin/env python3
"""test_viewer: tries the viewer: its server's doors, its run, and the page in a real browser (where Chromium and
chromedriver are installed).

    tests/test_viewer.py [TEST ..]

FRAMEDBG names another program, EXAMPLES another folder of examples.
"""
import folders

import passed_over
from test_viewer_answers import *  # noqa: F401, F403
from test_viewer_beside import *  # noqa: F401, F403
from test_viewer_blame import *  # noqa: F401, F403
from test_viewer_card import *  # noqa: F401, F403
from test_viewer_images import *  # noqa: F401, F403
from test_viewer_looks import *  # noqa: F401, F403
from test_viewer_maps import *  # noqa: F401, F403
from test_viewer_modules import *  # noqa: F401, F403
from test_viewer_page import *  # noqa: F401, F403
from test_viewer_server import *  # noqa: F401, F403
from test_viewer_what_if import *  # noqa: F401, F403

if __name__ == "__main__":
    passed_over.run_tests("test_viewer")
