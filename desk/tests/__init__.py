"""Tests of desk that need no program: `python3 -m unittest` in the folder above."""
