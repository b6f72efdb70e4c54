"""Refusals to judge: a number of noticed errors would say nothing about the tests."""


class Refusal(Exception):
    """Why no error is judged."""


def refuse(why):
    raise Refusal(why)


def at_least(least, found, what):
    """These, if there are enough of them: what is read by a pattern is not there if the pattern has become wrong."""
    found = list(found)
    if len(found) < least:
        refuse("%d %s were found, fewer than %d" % (len(found), what, least))
    return found
