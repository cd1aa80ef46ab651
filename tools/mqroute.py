"""mqroute as an oracle for tests of a broker.

    with Oracle(acl="topic readwrite #\n") as oracle:
        oracle.answers({"do": "connect", "client": "a"})
        [*copies, end] = oracle.answers({"do": "publish", "client": "a", "topic": "x"})

`answers` takes one command after another, and gives what each is answered with: its copies, and
last the closing line or the refusal. `run` takes a whole script, from a world of its own, and gives
such a list for each of its commands.
The program is `program`, or $MQROUTE, or the one that stands in the same clone or installation, or
`mqroute` on the PATH.

    with Live(1883) as live:
        assert not live.run([{"do": "connect", "client": "a"}])

`run` runs commands on a live broker at that port too, and gives what differs, as a list of
Difference, each with `line`, `command` and `texts`; Fault says that it couldn't. It needs the
package python3-paho-mqtt.
"""
from mqroute_tools.common.exit_status import Fault
from mqroute_tools.live.live import Difference, Live
from mqroute_tools.live.options import Tls
from mqroute_tools.script.oracle import Conversation, Oracle, OracleFault, found_program

__all__ = ["Conversation", "Difference", "Fault", "Live", "Oracle", "OracleFault", "Tls",
           "found_program"]
