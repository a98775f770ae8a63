#!/usr/bin/env python3
"""The prompt, run from this folder as `python3 mltx_shell.py HOST:PORT`. `mltx shell`, at the top, runs it too."""

import sys

from mltx.shell import main

if __name__ == "__main__":
    sys.exit(main("mltx shell"))
