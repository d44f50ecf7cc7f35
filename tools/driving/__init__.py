"""A graphics driver held against framedbg: a capture is drawn by both, and each event is judged by itself."""
