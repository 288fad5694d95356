"""Mistakes that must be noticed, and what tries them."""
