"""Topics and filters, as MQTT 5.0 (4.7) has them."""
from collections.abc import Iterator


def plain_filter(name: str) -> str:
    """A shared subscription's own filter; another filter as it is."""
    return name.split("/", 2)[2] if name.startswith("$share/") and name.count("/") > 1 else name


def matches(name: str, topic: str) -> bool:
    """Whether a filter that isn't shared matches a topic."""
    if "+" not in name and "#" not in name:
        return name == topic
    if topic.startswith("$") and not name.startswith("$"):
        return False
    wanted, levels = name.split("/"), topic.split("/")
    if wanted[-1] == "#":
        wanted.pop()
        if len(levels) < len(wanted):
            return False
        levels = levels[:len(wanted)]
    return len(wanted) == len(levels) and all(w in ("+", level) for w, level in zip(wanted, levels))


class Node:
    """The topics that begin with the same levels, and the one that has no others."""
    __slots__ = ("topic", "below")

    def __init__(self) -> None:
        self.topic: str | None = None
        self.below: dict[str, Node] = {}


class TopicTree:
    """Topics, by their levels."""

    def __init__(self) -> None:
        self.root = Node()

    def add(self, topic: str) -> None:
        node = self.root
        for level in topic.split("/"):
            if level not in node.below:
                node.below[level] = Node()
            node = node.below[level]
        node.topic = topic

    def matching(self, name: str) -> Iterator[str]:
        """The topics that a filter matches."""
        return self.below(self.root, name.split("/"), 0)

    def below(self, node: Node, wanted: list[str], depth: int) -> Iterator[str]:
        if depth == len(wanted):
            if node.topic is not None:
                yield node.topic
            return
        level = wanted[depth]
        if level == "#":
            yield from self.all_of(node, depth == 0)
        elif level == "+":
            for name, child in node.below.items():
                if not (depth == 0 and name.startswith("$")):
                    yield from self.below(child, wanted, depth + 1)
        elif level in node.below:
            yield from self.below(node.below[level], wanted, depth + 1)

    def all_of(self, node: Node, is_root: bool) -> Iterator[str]:
        nodes = [node]
        while nodes:
            here = nodes.pop()
            if here.topic is not None:
                yield here.topic
            nodes += [child for name, child in here.below.items()
                      if not (is_root and here is node and name.startswith("$"))]

    def alike(self, topic: str) -> Iterator[str]:
        """The topic itself if it is here, then those whose levels begin like its most, and
        so on; some of them again."""
        path = [self.root]
        for level in topic.split("/"):
            if level not in path[-1].below:
                break
            path.append(path[-1].below[level])
        if len(path) == topic.count("/") + 2 and path[-1].topic is not None:
            yield topic
        for node in reversed(path):
            yield from self.all_of(node, False)
