"""A script on a live broker, and where the broker's answers differ from mqroute's."""
