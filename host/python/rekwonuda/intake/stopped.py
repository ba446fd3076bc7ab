class Stopped(Exception):
    """The run cannot go on; the message says why. What is in the report stays there."""
