"""The command as `python -m mltx_histories`."""
import sys

from .cli import main

sys.exit(main())
