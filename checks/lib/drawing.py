"""Code, modules and streams, drawn: mostly lawful, and at their edges."""

from lib.formats import CLOSE, MODULES, MOST_WORDS, OPENED, SIZES, code_of, header, image, pages
from lib.plain import RULES


def some_code(source, count):
    """So many words: mostly NOP, some drawn as in checks/second_verifier; probes follow some moves of sp, at once or late."""
    noise = source.choice((0, 0, 0.02, 0.3))
    words = [RULES.some_word(source, count) if source.random() < noise else RULES.NOP for _ in range(count)]
    for at in (at + source.randrange(1, 6) for at, word in enumerate(words) if word == RULES.MOVE and source.random() < 0.7):
        if at < count:
            words[at] = RULES.STORE
    return code_of(*words)


def some_module(source, module):
    """The messages of a module, mostly those that it should have."""
    kind, second = source.choice(((1, 0), (1, 0), (4, 0), (4, 2), (4, 2)))
    count = source.choice((1, 1, 2, 3, source.randrange(1, 40), 1023, 1024, 1025, 2049) + ((4095, 4096, 4097) if second else ()))
    code, told = some_code(source, count), count if source.random() < 0.9 else source.choice((0, 1, count + 1, MOST_WORDS + 1))
    cut_as = OPENED[second] if source.random() < 0.9 else source.choice((2, 5))
    page_kind = cut_as if source.random() < 0.9 else source.choice((2, 5))
    messages = [header(kind, second, module, told, source.choice((0, 0, 0, count - 1, count)))]
    messages += pages(page_kind, module, code, SIZES[cut_as])
    messages.append(header(CLOSE, 0, module, 0, 0))
    if source.random() < 0.2:
        at = source.randrange(len(messages))
        messages[at : at + source.randrange(2)] = [messages[source.randrange(len(messages))]]
    return messages


def spoiled(source, text):
    """The text with one of its bytes changed, or cut off; mostly as it is."""
    kind = source.random()
    if kind < 0.2 and text:
        at = source.choice([0, 1, 2, 4, 5, 8, 9, source.randrange(len(text))]) % len(text)
        byte = source.choice((0, 1, 2, 3, 4, 5, 6, 16, 255, (text[at] + 1) % 256, (text[at] - 1) % 256))
        return text[:at] + bytes([byte]) + text[at + 1 :]
    return text[: source.randrange(len(text) + 1)] if kind < 0.35 else text


def some_text(source):
    """A connection's text: modules whose messages are mixed."""
    lists = [some_module(source, source.choice((0, 1, 2, 15, 16) if source.random() < 0.1 else (0, 1, 2, 15))) for _ in range(source.randrange(4))]
    mixed = []
    while any(lists):
        mixed.append(source.choice([it for it in lists if it]).pop(0))
    return spoiled(source, b"".join(mixed))


def some_image(source):
    """An image's file, of which some bytes may be others, or cut off, or more."""
    code = some_code(source, source.choice((1, 2, 3, 1024, 1025)))
    file = bytearray(image(source.randrange(MODULES), source.choice((0, 0, len(code) // 4 - 1)), code))
    file[12] = source.choice((1, 1, 2))
    for _ in range(source.choice((0, 1, 1, 2))):
        file[source.randrange(24) if source.random() < 0.7 else source.randrange(len(file))] = source.randrange(256)
    return bytes(file[: source.randrange(len(file) + 1)] if source.random() < 0.2 else file + b"\0" * source.choice((0, 0, 0, 1)))
