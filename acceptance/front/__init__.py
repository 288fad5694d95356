"""Tests of the front: its pages in a browser, its rules, its servers."""
