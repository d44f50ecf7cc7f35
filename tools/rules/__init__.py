"""The rules of drawing, once for all tools: docs/DEFINITIONS.md has them. build/reference.py has them too and stands
apart, so that it can be asked."""
