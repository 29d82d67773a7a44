"""Times reading from Python, and reading with the JSON as values of Python, as from_c.c does from C:   from_python.py BATCHES FILE.."""
import batches
from zaxmonth import SessionDescription


def read(text):
    SessionDescription.read(text).close()


def read_with_json(text):
    with SessionDescription.read(text) as description:
        description.json()


batches.show({"Python": read, "Python, JSON": read_with_json})
