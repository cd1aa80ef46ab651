"""right_broker.py MODE: the small broker of conformance/, right in a way of its own. It prints its
port.

delay: each packet of the broker comes a second late.
cleaner: so does, by three seconds, the second CONNACK and each later one of the client that removes
what scripts leave.
at-once: an interval of 0 is over before anybody is sent the message.
quick: none of these.
"""
import asyncio
import sys
from pathlib import Path

TOP = Path(__file__).resolve().parents[2]
sys.path[:0] = [str(TOP / "conformance"), str(TOP / "tools")]
from broker import Broker  # noqa: E402
from broker_wire import Connection, serve  # noqa: E402

CLEANER, LATE, DELAY = b"mqroute-cleaner", 3, 1


class Delayed(Connection):
    def write(self, data):
        asyncio.get_running_loop().call_later(DELAY, super().write, data)

    def close(self, reason=None):
        if reason is not None:
            super().close(reason)
        else:
            asyncio.get_running_loop().call_later(DELAY, super().close)


class SlowCleaner(Connection):
    seen = 0

    async def packet(self):
        first, reader = await super().packet()
        if first >> 4 == 1 and CLEANER in reader.data:
            SlowCleaner.seen += 1
            if SlowCleaner.seen > 1:
                await asyncio.sleep(LATE)
        return first, reader


class AtOnce(Broker):
    def hand(self, session, copy):
        if copy.message.interval != 0:
            super().hand(session, copy)


mode = sys.argv[1]
broker = AtOnce() if mode == "at-once" else Broker()
broker.connection = {"delay": Delayed, "cleaner": SlowCleaner}.get(mode, Connection)
asyncio.run(serve(broker, 0))
