"""The page to print."""
