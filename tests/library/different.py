"""How a comparison tells that the two sides differ: by an exception of its own, which no option of Python turns off."""


class Different(Exception):
    """Raised where the proved library does not agree with the reference; its text says where."""


def require(holds, text):
    if not holds:
        raise Different(text)
