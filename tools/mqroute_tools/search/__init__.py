"""A search for differences: random scripts on a live broker, and the smallest that differ."""
