"""Errors that a person is told in words."""


class Refusal(Exception):
    """What was asked cannot be done, and why. Its text is for the person who asked."""


def needs_package(what, package):
    """The refusal where a package of Debian's is missing."""
    return Refusal(f"{what} is missing; install it by: apt-get install {package}")
