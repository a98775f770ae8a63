"""The command as `python -m mltx_histories.pictures`."""
from .cli import main

main()
