"""A learner's front over the proved program: study in a terminal and in a browser.

Nothing in this package writes a collection's file. Every change goes through `anki FILE - desk`.
"""
