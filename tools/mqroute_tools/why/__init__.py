"""Why a client got a message, or didn't."""
