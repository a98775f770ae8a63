"""Records histories of transaction systems, and tells which order or which anomaly is in them."""

__version__ = "0.2.0"
