"""Tests of the command `bus` and of the calls for a notebook.

python3 -m unittest discover -s python/tests -t python
"""
