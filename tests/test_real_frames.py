#!/usr/bin/env python3
"""test_real_frames: the converter of RenderDoc's frames without RenderDoc. A frame that build/reference.py draws
stands in for one that is replayed.

    tests/test_real_frames.py [TEST ..]

checks/check_frames tries the whole on frames of running programs.
"""
import unittest

import folders

from test_real_frames_colours import *  # noqa: F401, F403
from test_real_frames_machines import *  # noqa: F401, F403
from test_real_frames_shapes import *  # noqa: F401, F403
from test_real_frames_whole import *  # noqa: F401, F403

if __name__ == "__main__":
    unittest.main()
