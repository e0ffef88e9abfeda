"""The text of mixed definitions that the port is timed with, by tools/measure/figures.py.

Of a seed and a size it is the same each time: of seed 7 and size 1000000 one of 1,000,072 bytes and 3,916 definitions.
"""

NAMES = (
    "Node Element Window EventTarget StyleSheet MediaTrack AudioBuffer RenderContext MessagePort StorageManager "
    "CacheEntry Request Response Document Range Observer"
).split()
# Names of members and arguments, and their types.
WORDS = (
    "name value kind length parentNode childCount startTime endTime currentState origin index source credentials "
    "mode bodyUsed timeStamp"
).split()
TYPES = (
    "long", "unsigned long", "boolean", "double", "DOMString", "USVString", "short", "any", "object",
    "sequence<long>", "DOMString?", "(long or Node)", "Promise<undefined>", "record<DOMString, long>",
    "FrozenArray<Element>", "Uint8Array",
)
COMMENTS = (
    "// What a page may call here.\n",
    "/* The origin of this part is\n * https://example.org/standard/#part\n */\n", "// Note\n", "\n",
)
VALUES = ("0", "false", '"auto"', "null")
WORD = 1 << 64
LEADS = ("[Exposed=Window]\ninterface ", "[Exposed=(Window, Worker)]\ninterface ", "partial interface ", "interface mixin ")
ATTRIBUTES = ("  readonly attribute ", "  attribute ", "  [SameObject] readonly attribute ", "  stringifier attribute ")


class Mixed:
    """The text of a seed, piece by piece."""

    def __init__(self, seed):
        self.state = seed

    def next(self):
        self.state ^= self.state << 13 & WORD - 1
        self.state ^= self.state >> 7
        self.state ^= self.state << 17 & WORD - 1
        return self.state

    def pick(self, words):
        return words[self.next() % len(words)]

    def in_ten(self, chances):
        return self.next() % 10 < chances

    def text(self, size):
        pieces, made = [], 0
        while made < size:
            pieces.append(self.pick(COMMENTS) + self.definition())
            made += len(pieces[-1])
        return "".join(pieces)

    def definition(self):
        kind = self.next() % 16
        if kind < 8:
            head = f"{self.pick(LEADS)}{self.pick(NAMES)} {{\n"
            return head + "".join(self.member() for _ in range(self.next() % 16)) + "};\n\n"
        if kind < 10:
            head = f"dictionary {self.pick(NAMES)}Init : EventInit {{\n"
            return self.body(head, 8, lambda: f"  {self.pick(TYPES)} {self.pick(WORDS)} = {self.pick(VALUES)};\n")
        if kind < 12:
            head = f'enum {self.pick(NAMES)}Kind {{\n  "{self.pick(WORDS)}"'
            return self.body(head, 8, lambda: f',\n  "{self.pick(WORDS)}-{self.pick(WORDS)}"', "\n")
        if kind == 12:
            head = f"namespace {self.pick(NAMES)}Tools {{\n"
            return self.body(head, 4, lambda: f"  /// What it gives.\n  {self.pick(TYPES)} {self.pick(WORDS)}();\n")
        if kind == 13:
            return f"callback {self.pick(NAMES)}Callback = undefined ({self.pick(TYPES)} x);\n"
        if kind == 14:
            return f"typedef {self.pick(TYPES)} {self.pick(NAMES)}Type;\n"
        return f"{self.pick(NAMES)} includes {self.pick(NAMES)}Mixin;\n"

    def body(self, head, most, part, end=""):
        return head + "".join(part() for _ in range(self.next() % most)) + end + "};\n\n"

    def member(self):
        if self.in_ten(5):
            return f"{self.pick(ATTRIBUTES)}{self.pick(TYPES)} {self.pick(WORDS)};\n"
        if self.in_ten(2):
            return f"  const unsigned short {self.pick(NAMES)}_MODE = 12;\n"
        head = f"  {self.pick(TYPES)} {self.pick(WORDS)}("
        if self.in_ten(7):
            head += f"{self.pick(('optional ', '[Clamp] ', ''))}{self.pick(TYPES)} {self.pick(WORDS)}"
        return head + ");\n"
