"""How a person is asked: sheets, what stands on them, and the terminal that shows them."""
