"""How wide a text may be, and where its lines end. The widths are those of DejaVu Sans, which is wider than the fonts
that stand before it in the picture, so that no label is wider than was thought."""
FAMILY = "Arial, Helvetica, 'DejaVu Sans', sans-serif"
# Printable characters by their widths, in hundredths of the size of the font.
_WIDTHS = {
    30: "'ijlIJ", 34: " \u00a0,./:;\\|", 37: "f-", 42: "()[]t!r", 46: '"', 53: "*_`sz", 56: "?cL", 60: "Fkvxy",
    62: "PTYaeo",
    64: "$0123456789ESbdghnpqu{}", 70: "KABVXZCR", 76: "UNH", 79: "&DGOQ", 84: "w#+<=>^~", 88: "M", 101: "%mW@",
}
_WIDTH = {character: width for width, characters in _WIDTHS.items() for character in characters}
_WIDEST, _BOLD = 101, 1.13


def width(text: str, size: float, bold: bool = False) -> float:
    """The most pixels that the text takes."""
    hundredths = sum(_WIDTH.get(character, _WIDEST) for character in text)
    return hundredths * size / 100 * (_BOLD if bold else 1)


def wrapped(text: str, size: float, room: float) -> list[str]:
    """The lines of the text in so many pixels. A word that is longer has a line of its own; words with a no-break space
    between them stay together."""
    lines = [""]
    for word in text.replace("\t", " ").split(" "):
        longer = f"{lines[-1]} {word}".strip()
        if lines[-1] and width(longer, size) > room:
            lines.append(word)
        else:
            lines[-1] = longer
    return lines
