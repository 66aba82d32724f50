"""What a login answers, by README.md and docs/PHC.md. A login is a case of argon2_login.json, with bytes in place of digits."""

from texts import Refused, need, need_known, need_whole, parameters, parsed

COSTS = ("m", "t", "p")
# The tag length of a stored hash without a tag.
DEFAULT_LENGTH = 32


def is_above(costs, bound):
    return any(costs[it] > bound[it] for it in COSTS)


def refusal(login):
    """Why a login is refused before its password is hashed, or None."""
    try:
        need(not is_above(login["wanted"], login["bound"]), "WantedAboveBound")
        fields = parsed(login["text"])
        need(not is_above(parameters(fields["pairs"]), login["bound"]), "AboveBound")
        need_whole(fields)
        need_known(fields)
    except Refused as reason:
        return str(reason)
    return None


def shown(text):
    """What a stored hash shows, and the length of its tag. It is None if the text is no stored hash of Argon2."""
    try:
        fields = parsed(text)
        values = parameters(fields["pairs"])
        need_known(fields)
    except Refused:
        return None
    return fields | values | {"length": DEFAULT_LENGTH if fields["hash"] is None else len(fields["hash"])}


def is_weaker(wanted, found):
    """Whether a stored hash that shows such settings is weaker than the wanted settings."""
    is_same = all(found[it] == wanted[it] for it in ("algorithm", "version", "keyid", "data"))
    return not is_same or any(found[it] < wanted[it] for it in (*COSTS, "length"))


def requests(login):
    """Yields the request for the tag under each secret, with the name of the secret, and the tag that the text has."""
    if refusal(login):
        return
    found = shown(login["text"])
    costs = [found[it] for it in ("algorithm", "version", *COSTS)]
    for by, secret in (("secret", login["secret"]), ("old secret", login["oldSecret"])):
        if secret is not None:
            fields = (login["password"], found["salt"], secret, found["data"])
            yield ("hash", found["length"], *costs, *fields), by, found["hash"]


def answer(login, accepted_by):
    """The answer to a login. `accepted_by` is the first secret whose tag is that of the text, or None."""
    found = shown(login["text"])
    weaker = found and is_weaker(login["wanted"], found)
    if reason := refusal(login) or (None if accepted_by else "WrongPassword"):
        return {"result": "invalid", "reason": reason, "weaker": weaker}
    return {"result": "valid", "acceptedBy": accepted_by, "weaker": weaker, "due": weaker or accepted_by == "old secret"}
