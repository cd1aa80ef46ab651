"""A mosquitto log: its script, and where the log differs from mqroute's answers to that."""
