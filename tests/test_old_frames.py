#!/usr/bin/env python3
"""test_old_frames: the converter of apitrace's traces without apitrace: its calls are made here, and what has to
come of them is worked out from OpenGL's definitions.

    tests/test_old_frames.py [TEST ..]

checks/check_old_frames tries the whole on a program that is traced anew.
"""
import unittest

import folders

from test_old_frames_draws import *  # noqa: F401, F403
from test_old_frames_state import *  # noqa: F401, F403
from test_old_frames_traces import *  # noqa: F401, F403

if __name__ == "__main__":
    unittest.main()
