"""Bugs planted by chance, by which blame is measured."""
