"""Tests of the functions of python/bwtools."""
