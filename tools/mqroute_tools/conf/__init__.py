"""What a mosquitto.conf says: which list is in force for whom, where the log is, and what no answer
of mqroute's takes into account."""
