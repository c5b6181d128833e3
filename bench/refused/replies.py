"""Replies as they come, for the programs in this folder."""

NO_MEMORY = b"IDL:omg.org/CORBA/NO_MEMORY:1.0"
# The completions of a system exception: the Request wasn't done, or may have been.
NO, MAYBE = 1, 2


def cut(taken):
    """The whole messages in front of these bytes, and what is left."""
    messages, place = [], 0
    while len(taken) >= place + 12:
        end = place + 12 + int.from_bytes(taken[place + 8 : place + 12], "big")
        if len(taken) < end:
            break
        messages.append(bytes(taken[place:end]))
        place = end
    return messages, bytes(taken[place:])


def completion(reply):
    """The completion of a NO_MEMORY reply; none of another one."""
    if reply[7] != 1 or reply[20:24] != b"\0\0\0\2" or reply[28 : 28 + len(NO_MEMORY)] != NO_MEMORY:
        return None
    return int.from_bytes(reply[-4:], "big")
