"""How a tool writes, and how it ends: the same for all of them."""
