"""Frames with a planted bug each: their meshes, and the sessions that find them."""
