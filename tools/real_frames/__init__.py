"""A frame that RenderDoc captured, as a capture of framedbg."""
