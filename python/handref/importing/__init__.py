"""Rewrites files of hands as people have them into the notations that handref reads.

    handref import --out tidy/ wild/

Each change is made by a rule of a table (`rules.RULES`, docs/IMPORT.md), is said, and leaves the
results that the file states in what is written, so that the proved program compares them. What no
rule covers leaves its hand out, with its line and its cause. Nothing here decides a rule of poker.
"""
