"""Letters in the fonts of PDFs: names of glyphs, and the encodings that fonts may name."""

import re
import unicodedata

# Accents of Unicode, by the names that glyphs have of them (Adobe Glyph List).
ACCENTS = {
    "\u0300": "grave",
    "\u0301": "acute",
    "\u0302": "circumflex",
    "\u0303": "tilde",
    "\u0304": "macron",
    "\u0306": "breve",
    "\u0307": "dotaccent",
    "\u0308": "dieresis",
    "\u030a": "ring",
    "\u030b": "hungarumlaut",
    "\u030c": "caron",
    "\u0326": "commaaccent",
    "\u0327": "cedilla",
    "\u0328": "ogonek",
}
SIGNS = """
space exclam! quotedbl" numbersign# dollar$ percent% ampersand& quotesingle' parenleft( parenright) asterisk* plus+
comma, hyphen- period. slash/ zero0 one1 two2 three3 four4 five5 six6 seven7 eight8 nine9 colon: semicolon; less<
equal= greater> question? at@ bracketleft[ backslash\\ bracketright] asciicircum^ underscore_ grave` braceleft{ bar|
braceright} asciitilde~ exclamdown¡ cent¢ sterling£ currency¤ yen¥ brokenbar¦ section§ dieresis¨ copyright©
ordfeminineª guillemotleft« logicalnot¬ registered® macron¯ degree° plusminus± twosuperior² threesuperior³ acute´ muµ
paragraph¶ periodcentered· cedilla¸ onesuperior¹ ordmasculineº guillemotright» onequarter¼ onehalf½ threequarters¾
questiondown¿ AEÆ EthÐ multiply× OslashØ ThornÞ germandblsß aeæ ethð divide÷ oslashø thornþ OEŒ oeœ LslashŁ lslashł
dotlessiı florinƒ circumflexˆ tilde˜ caronˇ breve˘ dotaccent˙ ring˚ ogonek˛ hungarumlaut˝ endash– emdash— quoteleft‘
quoteright’ quotesinglbase‚ quotedblleft“ quotedblright” quotedblbase„ dagger† daggerdbl‡ bullet• ellipsis…
perthousand‰ guilsinglleft‹ guilsinglright› fraction⁄ Euro€ trademark™ minus− fiﬁ flﬂ DcroatĐ dcroatđ
"""


def names() -> dict[str, str]:
    """The letters that glyphs show, by their names."""
    found = {sign[:-1]: sign[-1] for sign in SIGNS.replace("Euro€", "Euro€").split() if sign != "space"}
    found["space"] = " "
    for code in [*range(0x41, 0x5B), *range(0x61, 0x7B), *range(0xC0, 0x250)]:
        parts = unicodedata.normalize("NFD", chr(code))
        if parts[0].isascii() and all(accent in ACCENTS for accent in parts[1:]):
            name = parts[0] + "".join(ACCENTS[accent] for accent in parts[1:])
            found.setdefault(name, chr(code))
            if parts[0] in "GKLNRTgklnrt":  # whose cedillas most fonts call commas
                found.setdefault(name.replace("cedilla", "commaaccent"), chr(code))
    return found


def decoded(codec: str) -> dict[str, int]:
    """The codes of letters in an encoding of one byte each."""
    letters = ((bytes([code]).decode(codec, errors="ignore"), code) for code in range(255, 31, -1))
    return {letter: code for letter, code in letters if letter}


NAMES = names()
WIN = decoded("cp1252")
# Of StandardEncoding, what all encodings have in common: it has other quotation marks among ASCII.
STANDARD = {letter: code for letter, code in WIN.items() if code < 127 and letter not in "'`"}
ENCODINGS = {
    "/WinAnsiEncoding": WIN,
    "/MacRomanEncoding": decoded("mac_roman"),
    "/PDFDocEncoding": decoded("pdfdoc"),
}


# What fonts of Latin letters have beyond those of WinAnsiEncoding.
MORE = "ĀāĂăĄąĆćČčĎďĐđĒēĖėĘęĚěĞğĢģĪīĮįİıĶķĹĺĻļĽľŁłŃńŅņŇňŌōŐőŔŕŖŗŘřŚśŞşȘșŢţȚțŤťŪūŮůŰűŲųŹźŻż"
NAMES_IN_FONTS = {letter: name for name, letter in NAMES.items()}


def letter_of(name: str) -> str:
    """The letter that a glyph shows, by its name; nothing if that isn't known."""
    if coded := re.fullmatch("uni([0-9A-F]{4})|u([0-9A-F]{4,5})", name):
        return chr(int(coded[1] or coded[2], 16))
    return NAMES.get(name, "")
