"""A frame of OpenGL before 3.2, out of a trace of apitrace's: its calls, what they make of the state, and its
pictures."""
