"""The blocks of code in the documents, and what they print."""
import re

BLOCK = re.compile(r"^```(\w*)\n(.*?)^```$", re.M | re.S)


def blocks_of(document):
    """The blocks of a document, each a tag and a text."""
    return BLOCK.findall(document.read_text())


def commands_of(block):
    """The commands of a console block, each with what it prints. A here-document belongs to its
    command.
    """
    commands = []
    end = None
    for line in block.splitlines():
        if end is not None:
            commands[-1][0].append(line)
            end = None if line == end else end
        elif line.startswith("$ "):
            commands.append(([line[2:]], []))
            found = re.search(r"<< '(\w+)'", line)
            end = found and found[1]
        else:
            commands[-1][1].append(line)
    return [("\n".join(command), "".join(f"{line}\n" for line in printed)) for command, printed in commands]


def programs_of(document, language):
    """The programs of a document in a language, each with what it is to print."""
    blocks = [*blocks_of(document), ("", "")]
    for (tag, text), (following, output) in zip(blocks, blocks[1:]):
        if tag == language:
            commented = re.findall(r"^ *print\(.*\)  # (.*)$", text, re.M)
            yield text, output if following == "text" else "".join(f"{line}\n" for line in commented)
