"""The bytes of each class of the grammar, by hand from docs/GRAMMAR.md."""

DIGITS = set(b"0123456789")
LETTERS = set(b"abcdefghijklmnopqrstuvwxyzABCDEFGHIJKLMNOPQRSTUVWXYZ")
EVERY = set(range(256))
CLASSES = {
    "Blank": set(b" \t\r\n"), "Digit": DIGITS, "OneToNine": DIGITS - set(b"0"), "Octal": set(b"01234567"),
    "Hex": DIGITS | set(b"abcdefABCDEF"), "Letter": LETTERS, "Alnum": DIGITS | LETTERS, "Name": DIGITS | LETTERS | set(b"_-"),
    "Slash": set(b"/"), "XLetter": set(b"xX"), "ELetter": set(b"eE"), "Sign": set(b"+-"), "NotQuote": EVERY - set(b'"'),
    "NotLineFeed": EVERY - set(b"\n"), "Any": EVERY,
}
