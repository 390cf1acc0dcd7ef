"""Certificates, which ./plan writes and ./verify checks, as a text that people read. Whether one holds is not said here.

Nothing here is taken from the reference program, so that a comparison of the two says something about both.
"""
