"""Files that are mutated at random, for the checks of programs that read any."""


def mutated(chance, data, tokens):
    """The bytes after some changes: cut, or with bytes, tokens or lines elsewhere."""
    for _ in range(chance.choice([0, 1, 1, 1, 2, 5])):
        lines, at = data.split(b"\n"), chance.randrange(len(data) + 1)
        one, other = chance.randrange(len(lines)), chance.randrange(len(lines))
        kind = chance.randrange(8)
        if kind == 0:
            data = data[:at]
        elif kind == 1:
            data = data[:at] + data[at + chance.randrange(30):]
        elif kind == 2:
            data = data[:at] + bytes([chance.randrange(256)]) + data[at + 1:]
        elif kind == 3:
            lines[one], lines[other] = lines[other], lines[one]
            data = b"\n".join(lines)
        elif kind == 4:
            lines[one:one + chance.randrange(2)] = [lines[other]]
            data = b"\n".join(lines)
        else:
            data = data[:at] + chance.choice(tokens) + data[at:]
    return data
