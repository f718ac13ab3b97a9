"""What an answer says."""

OK, NONE, BAD = "ok", "no part", "bad line"


def outcome(answer):
    """The number of a refusal, or one of the words above."""
    if answer == b"ok -":
        return NONE
    if answer.startswith(b"ok"):
        return OK
    if answer.startswith(b"refused "):
        return int(answer.split(b" ")[1])
    return BAD


def record_of(answer):
    """The record that a refusal names, 0 for none."""
    return int(answer.split(b" ")[2]) if answer.startswith(b"refused ") else 0
