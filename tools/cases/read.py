"""A case from a path, standard input or a URL, whichever form it has."""
import codecs
import contextlib
import os
import sys

from . import drawing, file, url
from .model import Mistake, counted

MOST_BYTES = 1 << 24  # far more than a drawing or a case file has; a device may never end
MOST_LINES = 1 << 28  # and this of the lines that the program prints


@contextlib.contextmanager
def naming(source):
    """Puts the name of what is read in front of a mistake."""
    try:
        yield
    except Mistake as e:
        raise e.of("standard input" if source == "-" else "the URL" if is_url(source) else source) from None


def is_url(source):
    return url.LIKELY.match(source.strip()) is not None and not os.path.exists(source)


def read_bytes(path, most=MOST_BYTES):
    """What a file holds, or standard input for '-'."""
    try:
        if path == "-":
            data = sys.stdin.buffer.read(most + 1) if sys.stdin else b""
        else:
            with open(path, "rb") as f:
                data = f.read(most + 1)
    except (OSError, ValueError) as e:
        raise Mistake(told(e)) from None
    if len(data) > most:
        raise Mistake("there are more than %s in it" % counted(most, "byte"))
    return data


def told(error):
    """What the system says of a file that can't be read or written. (A name with a zero byte is a ValueError.)"""
    return getattr(error, "strerror", None) or str(error)


def text_of(data):
    """The text of a file's bytes, without a byte-order mark."""
    wide = data[:2] in (codecs.BOM_UTF16_LE, codecs.BOM_UTF16_BE)
    try:
        return data.decode("utf-16" if wide else "utf-8-sig")
    except UnicodeDecodeError as e:
        raise Mistake("byte %d is no text in %s" % (e.start, "UTF-16" if wide else "UTF-8")) from None


def case_of(data, as_is=False):
    """The case of a case file's bytes, a drawing's or a URL's; a case file starts with its version, which stands in no text."""
    if not data:
        raise Mistake("there is nothing in it")
    if data[0] < 9:
        return file.decode(data)
    text = text_of(data)
    words = text.split()
    if len(words) == 1 and url.LIKELY.match(words[0]):
        return url.parse(words[0], as_is)
    return drawing.parse(text, as_is)


def read_case(source, as_is=False):
    """The case of a path ('-': standard input) or a URL. With `as_is` a drawing or a URL may be one that the program refuses."""
    with naming(source):
        return url.parse(source.strip(), as_is) if is_url(source) else case_of(read_bytes(source), as_is)
