"""A night of captures: each is compared with its picture, what differs is blamed, and one report tells all."""
