"""desk, the companion for planners, in rooms.

A room imports from the rooms before it in `ROOMS` and from itself, never from one behind it.
"""

import os
import sys

ROOMS = ("case", "program", "hints", "sitting", "faces", "report", "commands", "web")

# The client for Python lies in the repository, or the installation, in which desk lies.
CLIENT = os.path.realpath(os.path.join(os.path.dirname(__file__), "..", "..", "python"))
if CLIENT not in sys.path:
    sys.path.append(CLIENT)
