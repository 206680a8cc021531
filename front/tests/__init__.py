"""Tests of the front, over the built program: `python3 -m unittest discover -s front/tests -t .` from the top."""
