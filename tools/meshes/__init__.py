"""3D models read from files, and drawn as the events of a capture."""
