"""One project in many notations: headers, inline tables or dotted keys, with any form of numbers, strings and keys."""

import random

PROJECT = {
    "slave": [
        {"station": 1001},
        {
            "station": 1002,
            "area": [
                {
                    "sm": 2,
                    "dir": "out",
                    "phys": 0x1100,
                    "task": 0,
                    "assigned": [0x1601, 0x1600],
                    "pdo": [
                        {"index": 0x1600, "entries": [[1, 16], [0, 3], [4294967295, 1]]},
                        {"index": 0x1601, "entries": [[2, 64]]},
                    ],
                },
                {"sm": 15, "dir": "in", "phys": 0x2FFF, "task": 7, "assigned": []},
            ],
        },
    ],
    "group": [
        {
            "alias": 65535,
            "slave": [
                {
                    "station": 65535,
                    "area": [
                        {
                            "sm": 0,
                            "dir": "in",
                            "phys": 0x1000,
                            "task": 1,
                            "assigned": [1],
                            "pdo": [{"index": 1, "entries": []}, {"index": 65535, "entries": [[3, 1]]}],
                        }
                    ],
                }
            ],
        },
        {"alias": 1, "slave": [{"station": 1}, {"station": 2, "area": []}]},
    ],
}


class Notation:
    """Writes a document in a notation that is drawn from a seed."""

    def __init__(self, seed: int) -> None:
        self.random = random.Random(seed)
        self.end = self.random.choice(["\n", "\r\n"])

    def document(self, table: dict) -> str:
        """The document, perhaps after a byte order mark."""
        lines = self.below("", table)
        text = "".join(f"{line}{self.remark()}{self.end}" for line in lines)
        return self.random.choice(["", "\ufeff"]) + text

    def remark(self) -> str:
        """A comment, or none."""
        return self.random.choice(["", "", " # [[slave]]", "\t#"])

    def below(self, path: str, table: dict) -> list[str]:
        """The lines of a table: its own pairs, then tables below headers of their own."""
        pairs, headed = [], []
        for key, value in table.items():
            if tables_in(value) and self.random.random() < 0.6:
                name = f"{path}.{self.key(key)}" if path else self.key(key)
                for item in value:
                    headed += [f"[[{name}]]", *self.below(name, item)]
            else:
                pairs.append(f"{self.key(key)} = {self.value(value)}")
        return [*pairs, *headed]

    def key(self, key: str) -> str:
        """A key, bare or between quotes."""
        return self.random.choice([key, key, f'"{key}"', f"'{key}'", f'"\\u{ord(key[0]):04x}{key[1:]}"'])

    def value(self, value: object) -> str:
        """A value; tables in it are inline."""
        if isinstance(value, dict):
            return self.brackets("{", "}", [f"{self.key(key)} = {self.value(item)}" for key, item in value.items()])
        if isinstance(value, list):
            return self.brackets("[", "]", [self.value(item) for item in value])
        return self.number(value) if isinstance(value, int) else self.string(value)

    def brackets(self, opening: str, closing: str, items: list[str]) -> str:
        """Items between brackets, on a line or on several, perhaps with a last comma."""
        gap = self.random.choice(["", " ", self.end, f" # ]}}{self.end}  "])
        last = self.random.choice(["", ","]) if items else ""
        return f"{opening}{gap}{f',{gap}'.join(items)}{last}{gap}{closing}"

    def number(self, number: int) -> str:
        """An integer in one of its forms."""
        spelt = f"{number:_}" if number > 999 else str(number)
        forms = [str(number), f"+{number}", spelt, f"0x{number:X}", f"0x{number:06x}", f"0o{number:o}", f"0b{number:b}"]
        return self.random.choice(forms)

    def string(self, words: str) -> str:
        """A string in one of its kinds."""
        escaped = "".join(self.random.choice([sign, f"\\u{ord(sign):04X}", f"\\x{ord(sign):02x}"]) for sign in words)
        folded = f'"""{self.end}{words[0]}\\{self.end}  {self.end} {words[1:]}"""'
        return self.random.choice([f'"{words}"', f"'{words}'", f'"{escaped}"', f"'''{words}'''", folded])


def tables_in(value: object) -> bool:
    """Whether a value is an array of tables that headers can write."""
    return isinstance(value, list) and bool(value) and all(isinstance(item, dict) for item in value)
