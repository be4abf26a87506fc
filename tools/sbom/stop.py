"""The exception that ends tools/sums early."""


class Stop(Exception):
    """Nothing is written. The text says why."""
