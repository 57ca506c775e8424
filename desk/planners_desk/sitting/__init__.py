"""A case's session: its journal, what is kept beside it, and a sitting in front of it."""
