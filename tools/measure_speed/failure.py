"""The exception that ends a run early."""
from __future__ import annotations


class Stop(Exception):
    """Ends the run. The message is a sentence for the user."""
