"""TSRequests as they lie on the wire:
where one ends, where each field is, and how one is edited in place."""

# the fields, by their tags
VERSION, NEGO_TOKENS, AUTH_INFO, PUB_KEY_AUTH = range(4)


def header(data, at):
    """The tag at `at`, where its content begins and where it ends; the data may end earlier."""
    tag, length, at = data[at], data[at + 1], at + 2
    if length >= 0x80:
        count = length & 0x7F
        length, at = int.from_bytes(data[at:at + count], "big"), at + count
    return tag, at, at + length


def take(first, source):
    """The request that begins with this byte, read of a stream to its end."""
    data = first + exactly(source, 1)
    if data[1] >= 0x80:
        data += exactly(source, data[1] & 0x7F)
    _, begin, end = header(data, 0)
    return data + exactly(source, end - begin)


def exactly(source, count):
    data = b""
    while len(data) < count:
        piece = source.recv(count - len(data))
        if not piece:
            raise ConnectionError("the stream ends inside a request")
        data += piece
    return data


def fields(request):
    """Of each field its number, and where the octets of its value begin and end."""
    _, at, end = header(request, 0)
    found = {}
    while at < end:
        tag, inner, after = header(request, at)
        # [1] has SEQUENCE, SEQUENCE and [0] before the OCTET STRING
        for _ in range(4 if tag == 0xA1 else 1):
            _, inner, ended = header(request, inner)
        found[tag - 0xA0] = (inner, ended)
        at = after
    return found


def with_version(request, number):
    """The request with another version, of one byte as before."""
    begin, _ = fields(request)[VERSION]
    return request[:begin] + bytes([number]) + request[begin + 1:]


def garbled(request, field):
    """The request with one bit of the last octet of the field's value changed;
    None where it has no such field."""
    found = fields(request)
    if field not in found:
        return None
    _, end = found[field]
    return request[:end - 1] + bytes([request[end - 1] ^ 1]) + request[end:]


# ---- fields rebuilt, whose lengths may change

# where the SPNEGO token is, by the tags around it, and where an offer's list and an answer's
# fields are in it
TOKEN = (0x30, 0xA1, 0x30, 0x30, 0xA0, 0x04)
OFFERED = (*TOKEN, 0x60, 0xA0, 0x30, 0xA0, 0x30)
ANSWERED = (*TOKEN, 0xA1, 0x30)
KERBEROS = bytes.fromhex("06092a864886f712010202")
MIC = 0xA3


def element(tag, content):
    length = len(content)
    count = (length.bit_length() + 7) // 8
    short = (
        bytes([length]) if length < 0x80 else bytes([0x80 | count]) + length.to_bytes(count, "big")
    )
    return bytes([tag]) + short + content


def parts(data):
    """Each element with its tag and content."""
    at = 0
    while at < len(data):
        tag, begin, at = header(data, at)
        yield tag, data[begin:at]


def within(data, path, edit):
    """The elements, with the content at this path of tags edited, where there is such a path."""
    if not path:
        return edit(data)
    return b"".join(
        element(tag, within(content, path[1:], edit) if tag == path[0] else content)
        for tag, content in parts(data)
    )


def without(tag):
    """An edit that leaves out the elements of this tag."""
    return lambda data: b"".join(
        element(found, content) for found, content in parts(data) if found != tag
    )
