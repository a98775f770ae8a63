"""The prompt, as `python3 -m mltx`."""

import sys

from .shell import main

sys.exit(main("python3 -m mltx"))
