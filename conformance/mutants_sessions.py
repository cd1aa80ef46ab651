"""Faults in sessions, wills and takeovers: sections 3.1, 3.2, 3.14, 4.1 and 4.4."""
from dataclasses import replace

from broker import WITH_WILL, Broker, Session
from broker_wire import Connection
from mutants import mutant


def both_stay(broker, session):
    """The older connection isn't told and stays, and what is sent goes to both."""
    older, session.connection = session.connection, None
    session.before = older


def to_both(broker, session, copy):
    older = getattr(session, "before", None)
    if older is not None and session.connection is not None:
        older.session = session
        older.send_copy(copy, False)
    Broker.hand(broker, session, copy)


def without_a_word(broker, session):
    session.connection.close()
    broker.leave(session, None)


def and_no_groups(broker, older, client):
    """A session that goes on has lost its shared subscriptions."""
    session = Broker.resumed(broker, older, client)
    session.subscriptions = {text: one for text, one in session.subscriptions.items()
                             if one.share is None}
    return session


def groups_stay(broker, clean):
    """Clean Start leaves shared subscriptions; of a session that is there."""
    return False


def with_groups(broker, older, client):
    session = Broker.resumed(broker, older, client)
    if broker.is_clean:
        session.subscriptions = {text: one for text, one in session.subscriptions.items()
                                 if one.share is not None}
        session.waiting.clear()
    return session


def noted_clean(broker, client, clean, interval, will, connection):
    broker.is_clean = clean
    session, _ = Broker.connect(broker, client, clean, interval, will, connection)
    return session, False if clean else _


mutant("3.1.2-4", "Clean Start discards no session", is_discarded=lambda broker, clean: False)
mutant("3.1.2-4b", "Clean Start leaves what is subscribed to in groups", is_discarded=groups_stay,
       resumed=with_groups, connect=noted_clean)
mutant("3.1.2-5", "a session is there, and begins anew all the same",
       resumed=lambda broker, older, client: Session(client))
mutant("3.1.2-5b", "a session that goes on has lost its groups", resumed=and_no_groups)
mutant("3.1.2-6", "without a session CONNACK says that there is one",
       is_present=lambda broker, clean, older: not clean)
mutant("3.1.2-7", "a will isn't kept", kept_will=lambda broker, will: None)
mutant("3.1.2-8", "a will is sent by a DISCONNECT alone",
       has_will=lambda broker, reason: reason is not None and reason >= WITH_WILL)
mutant("3.1.2-8b", "a DISCONNECT that asks for the will has none",
       has_will=lambda broker, reason: reason is None)
mutant("3.1.2-8c", "a will with a delay is never sent", delay=lambda broker, session: (
    session.will.delay * 1000))
mutant("3.1.2-10", "a DISCONNECT takes no will away", has_will=lambda broker, reason: True)


def will_again(broker, session):
    will = session.will
    Broker.send_will(broker, session)
    session.older_will = will


def older_will(broker, client, clean, interval, will, connection):
    session, present = Broker.connect(broker, client, clean, interval, will, connection)
    session.will = will or getattr(session, "older_will", None)
    return session, present


mutant("3.1.2-10b", "a will that was sent is kept for the next connection", send_will=will_again,
       connect=older_will)
mutant("3.1.2-14", "each will is retained", kept_will=lambda broker, will: (
    will and replace(will, retain=True)))
mutant("3.1.2-15", "no will is retained", kept_will=lambda broker, will: (
    will and replace(will, retain=False)))
mutant("3.1.2-23", "each session ends with its connection", end_of=lambda broker, session: 0)
mutant("3.1.2-23b", "a DISCONNECT changes no interval", wire={
    "disconnect": lambda self, reader: 0 if reader.is_at_end() else reader.number(1)})
mutant("3.1.3-9", "a will doesn't wait", delay=lambda broker, session: 0)
mutant("3.1.4-3", "a connection that is taken over stays, and gets what is sent",
       take_over=both_stay, hand=to_both)
mutant("3.1.4-3b", "a connection that is taken over is closed without a DISCONNECT",
       take_over=without_a_word)
mutant("3.2.2-2", "after Clean Start CONNACK says that there is a session",
       is_present=lambda broker, clean, older: older is not None or clean)
mutant("3.2.2-3", "CONNACK never says that there is a session",
       is_present=lambda broker, clean, older: False)
mutant("3.14.4-3", "a DISCONNECT of reason 0 is as the end of the connection",
       has_will=lambda broker, reason: True)


def end_all(broker, now=None):
    """Sessions of clients that are connected are over too."""
    for session in [one for one in broker.sessions.values() if one.end is not None]:
        if session.end <= broker.now():
            session.subscriptions.clear()
            broker.end(session)


def ends_from_connect(broker, client, clean, interval, will, connection):
    session, present = Broker.connect(broker, client, clean, interval, will, connection)
    session.end = broker.end_of(session)
    return session, present


mutant("4.1.0-1", "a session is over though its client is connected",
       connect=ends_from_connect, discard_ended=end_all)
mutant("4.1.0-2", "a session that is over goes on", has_ended=lambda broker, session, now: False)
mutant("4.4.0-1", "what isn't acknowledged isn't sent again", wire={
    "send_copy": lambda self, copy, has_waited, dup=False: (
        None if dup else Connection.send_copy(self, copy, has_waited))})
