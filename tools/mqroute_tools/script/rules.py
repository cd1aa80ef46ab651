"""By whose rules access lists are read, and decide."""
OWN, MOSQUITTO = "own", "mosquitto"
RULES = (OWN, MOSQUITTO)
WHOSE = {OWN: "mqroute's own rules", MOSQUITTO: "mosquitto's rules"}
