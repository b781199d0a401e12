"""Two checkers of a run that share nothing: one reads what the clients saw, the other what the servers did."""
