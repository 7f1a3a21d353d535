"""What `ehc dump` prints of an image, as values."""
import dataclasses


@dataclasses.dataclass
class Frame:
    """A frame: its region, its rows by location, and of its exception table the address, call sites, actions, types and lists."""

    start: int
    end: int
    rows: list = dataclasses.field(default_factory=list)
    lsda: int = None
    sites: list = dataclasses.field(default_factory=list)
    actions: dict = dataclasses.field(default_factory=dict)
    types: dict = dataclasses.field(default_factory=dict)
    lists: dict = dataclasses.field(default_factory=dict)
    lines: list = dataclasses.field(default_factory=list)


def take(frame, words):
    """Takes a line behind that of a frame."""
    kind, number = words[0], words[1].rstrip(":")
    if kind == "row":
        frame.rows.append((int(number, 16), " ".join(words[2:])))
    elif kind == "lsda":
        frame.lsda = int(number, 16)
    elif kind == "site":
        frame.sites.append((int(words[1], 16), int(words[2], 16), int(words[4], 16), int(words[6])))
    elif kind == "action":
        frame.actions[int(number)] = [int(word) for word in words[2:]]
    elif kind == "type":
        frame.types[int(number)] = int(words[2], 16)
    elif kind == "list":
        frame.lists[int(number)] = [int(word) for word in words[2:]]


def frames_in(text):
    """The lines before the first frame, and the frames, of what `dump` prints."""
    before, frames = [], []
    for line in text.splitlines():
        words = line.split()
        if words[0] == "frame":
            frames.append(Frame(int(words[1], 16), int(words[2], 16)))
        elif line.startswith("  "):
            take(frames[-1], words)
        (frames[-1].lines if frames else before).append(line)
    return before, frames
