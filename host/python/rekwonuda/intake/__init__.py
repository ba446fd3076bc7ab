"""Checks any number of files on Dask, and writes a report with a line for each."""
