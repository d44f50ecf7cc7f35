"""Blame: which event made a picture differ from the one that it should be, and which change mends it."""
