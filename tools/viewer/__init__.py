"""The viewer: a server over one run of a capture, and its page."""
