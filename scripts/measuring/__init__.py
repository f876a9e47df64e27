"""The jobs of `scripts/measure`, a module for each: what it measures, its words and its tables.

`runs` runs a program and tells what that took; `families` has the texts of the job `growth`.
"""
