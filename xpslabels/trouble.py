"""A file that cannot be read."""


class Unreadable(Exception):
    """Why a file, or something that the program needs, cannot be read: one sentence for people."""
