"""Helpers for the tests. None of them imports the Python package under test."""
from pathlib import Path

# Derived from this file's path, so that the tests of a copied tree test the copy.
ROOT = Path(__file__).resolve().parents[2]
