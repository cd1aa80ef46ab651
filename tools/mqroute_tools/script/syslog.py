"""What syslog and the journal write before the lines of a program."""
import re

# `Nov 24 18:40:00 host mosquitto[123]: `, or with an ISO time or seconds in place of the first
# three words
PREFIX = re.compile(
    r"(?:([A-Z][a-z]{2}) +(\d{1,2}) (\d\d:\d\d:\d\d)(?:\.\d+)?"
    r"|(?:[A-Z][a-z]{2} )?(\d{4}-\d\d-\d\d[T ]\d\d:\d\d:\d\d)(?:[.,]\d+)?"
    r"( ?UTC|Z|[+-]\d\d:?\d\d)?|(\d{9,11})\.\d+)"
    r" \S+ ([^\s:\[]+)(?:\[\d+\])?: ")
