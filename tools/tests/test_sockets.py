"""Sockets of many connections: one that is closed may be let go of once more."""
import importlib.util
import socket
import unittest

import worked  # noqa: F401  it knows where the tools are

HAS_PAHO = importlib.util.find_spec("paho") is not None


@unittest.skipUnless(HAS_PAHO, "this python has no paho-mqtt")
class Dropped(unittest.TestCase):
    def test_a_closed_one(self):
        """paho-mqtt does so when it forgets a client."""
        from mqroute_tools.live.sockets import Sockets
        sockets = Sockets()
        with socket.socket() as closed:
            sockets.drop(closed)
        sockets.drop(closed)
        sockets.close()
        sockets.drop(closed)


if __name__ == "__main__":
    unittest.main()
