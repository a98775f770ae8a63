"""A client of a server that `mltx serve` runs.

    import mltx
    from mltx import Reply

    def move(tx):
        if tx.withdraw(1, 30) is Reply.DONE and tx.deposit(2, 30) is Reply.DONE:
            return True
        tx.abort()
        return False

    with mltx.connect("127.0.0.1:7000") as client:
        moved = client.run(move)

A `Client` holds one connection, and makes a new one if that has ended. It runs one transaction at a time, for one thread at a
time; a `Pool` has clients for threads, and `mltx.aio` is for asyncio. An `Operator` sees what a server does, ends a session, and
stops the server; with asyncio call it by `asyncio.to_thread`. Failures are `MltxError`s; a number out of its range is a
`ValueError`, before anything is sent. The logger `mltx` gets connections and failed tries. Python 3.9 and its standard library
are enough."""

from .admin import OpenTransaction, Operator, ServedSession, Wait
from .client import Attempt, Client, Pool, Session, Transaction, connect
from .core import Retries, parse_address
from .errors import CommitUnknown, ConnectionLost, GaveUp, IdsSpent, LogFull, MltxError, Nested, NoRoom, NoSuchClient, NoSuchTx
from .errors import OutOfMemory, PartlyDone, PoolTimeout, Refused, Running, ScriptFault, ServerAway, ServerRestarted
from .errors import SessionsTaken, TimedOut, TooManyOpen, TransactionOver, UnexpectedAnswer, WrongThread
from .operations import FORMS, Argument, Form, Operation, Reply

# The version of the client and of the program. It is changed here first: tests fail if another text has the old one.
__version__ = "0.2.0"

__all__ = ["connect", "parse_address", "Client", "Pool", "Retries", "Session", "Transaction", "Attempt"]
__all__ += ["Operation", "Form", "FORMS", "Argument", "Reply"]
__all__ += ["Operator", "Wait", "ServedSession", "OpenTransaction", "NoSuchClient"]
__all__ += ["MltxError", "ConnectionLost", "ServerAway", "TimedOut", "SessionsTaken", "CommitUnknown", "TransactionOver"]
__all__ += ["ServerRestarted", "UnexpectedAnswer", "WrongThread", "PoolTimeout", "PartlyDone", "Nested"]
__all__ += ["Refused", "OutOfMemory", "NoRoom", "NoSuchTx", "Running", "TooManyOpen", "LogFull", "IdsSpent", "ScriptFault"]
__all__ += ["GaveUp"]
