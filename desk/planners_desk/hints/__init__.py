"""What follows from answers and rules: bounds, sentences, patterns, plans, forecasts."""
