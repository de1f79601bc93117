"""A plain interpreter of scripts, by which the program is tested.

It is Treiber's stack and Michael and Scott's queue, over a fixed pool of nodes, one load, store or compare-and-swap at a
time, and it shares nothing with the program but docs/cli.md. An operation is a generator: it makes one atomic step,
yields, makes the next, and the step that ends it also returns the answer. Each step is noted in the container's log.
"""

from typing import NamedTuple

NULL = (1 << 20) - 1


class Word(NamedTuple):
    """A tagged word of the container."""

    index: int
    tag: int = 0
    closed: bool = False
    shut: bool = False

    def raised(self, index):
        return self._replace(index=index, tag=self.tag + 1)

    def kept(self, index):
        return self._replace(index=index)


class Cell:
    """A word in shared memory, by its name, and the log of the steps that are made."""

    def __init__(self, word, name, log):
        self.word, self.name, self.log = word, name, log

    def load(self):
        self.log.append(f"load {self.name}")
        return self.word

    def store(self, word):
        self.log.append(f"store {self.name}")
        self.word = word

    def exchange(self, seen, new):
        """A compare-and-swap. Answers whether it succeeded."""
        has_succeeded = self.swapped(seen, new)
        self.log.append(f"compare-and-swap {self.name} {'succeeded' if has_succeeded else 'failed'}")
        return has_succeeded

    def try_exchange(self, seen, new):
        """The same, where it does not matter whether it succeeds."""
        self.swapped(seen, new)
        self.log.append(f"compare-and-swap {self.name} tried")

    def swapped(self, seen, new):
        is_same = self.word == seen
        if is_same:
            self.word = new
        return is_same


class Numbers:
    """Plain numbers in shared memory, each by this name and its place."""

    def __init__(self, numbers, name, log):
        self.numbers, self.name, self.log = numbers, name, log

    def load(self, place):
        self.log.append(f"load {self.name} {place}")
        return self.numbers[place]

    def store(self, place, number):
        self.log.append(f"store {self.name} {place}")
        self.numbers[place] = number


class FreeList:
    """A free list of indexes: taking from it raises its tag, giving back keeps it."""

    def __init__(self, top, links, limit):
        self.top, self.links, self.limit = top, links, limit

    def take(self):
        """Answers an index, or the word that stopped it."""
        while True:
            seen = self.top.load()
            if seen.index == NULL or seen.tag == self.limit:
                return None, seen
            yield
            link = self.links.load(seen.index)
            yield
            if self.top.exchange(seen, seen.raised(link)):
                return seen.index, seen
            yield

    def count(self):
        """How many indexes are free."""
        count, index = 0, self.top.word.index
        while index != NULL:
            count, index = count + 1, self.links.numbers[index]
        return count

    def give(self, first, last):
        """Gives a chain back, whose own links stand already."""
        while True:
            seen = self.top.load()
            yield
            self.links.store(last, seen.index)
            yield
            if self.top.exchange(seen, seen.kept(first)):
                return
            yield


class Stack:
    """The stack: nodes with a link each, a free list of them, and the top."""

    operations = ("put", "take", "close", "shut")

    def __init__(self, capacity, limit):
        self.log, self.limit = [], limit
        self.links = Numbers([*range(1, capacity), NULL], "link", self.log)
        self.free = FreeList(Cell(Word(0), "FREE", self.log), self.links, limit)
        self.top = Cell(Word(NULL), "TOP", self.log)
        self.values = [None] * capacity

    def put(self, value):
        node, seen = yield from self.free.take()
        if node is None:
            if seen.index != NULL:
                return f"spent free {seen.tag} {value}"
            yield
            return f"{self.full()} {value}"
        self.values[node] = value
        yield
        seen, refusal = yield from self.push(node, node)
        if refusal:
            yield
            yield from self.free.give(node, node)
            return f"{refusal} {value}"
        return f"put {seen.tag}"

    def full(self):
        top = self.top.load()
        if top.closed:
            return "closed"
        return f"spent top {top.tag}" if top.tag == self.limit else "full"

    def push(self, first, last):
        """Puts the chain from its new top down on the stack. Answers why it is refused, if it is."""
        while True:
            seen = self.top.load()
            if seen.closed:
                return seen, "closed"
            if seen.tag == self.limit:
                return seen, f"spent top {seen.tag}"
            yield
            self.links.store(last, seen.index)
            yield
            if self.top.exchange(seen, seen.raised(first)):
                return seen, None
            yield

    def nothing_to_take(self, seen):
        if seen.shut:
            return "shut"
        if seen.index == NULL:
            return "closed" if seen.closed else "empty"
        return f"spent top {seen.tag}" if seen.tag == self.limit else None

    def take(self):
        while True:
            seen = self.top.load()
            refusal = self.nothing_to_take(seen)
            if refusal:
                return refusal
            yield
            link = self.links.load(seen.index)
            yield
            if self.top.exchange(seen, seen.raised(link)):
                break
            yield
        value = self.values[seen.index]
        yield
        yield from self.free.give(seen.index, seen.index)
        return f"take {seen.tag} {value}"

    def close(self):
        while True:
            seen = self.top.load()
            if seen.closed:
                return "close false"
            yield
            if self.top.exchange(seen, seen._replace(closed=True)):
                return "close true"
            yield

    def shut(self):
        while True:
            seen = self.top.load()
            if seen.shut:
                return "shut false"
            yield
            if self.top.exchange(seen, seen._replace(shut=True)):
                return "shut true"
            yield

    def look(self):
        yield from ()
        return "look empty" if self.top.load().index == NULL else "look some"

    def range(self, *values):
        if not values:
            return "nothing"
        held = []
        for value in values:
            node, seen = yield from self.free.take()
            if node is None:
                break
            self.values[node] = value
            yield
            if held:
                self.links.store(node, held[-1])
                yield
            held.append(node)
        if not held:
            refusal = f"spent free {seen.tag}" if seen.index != NULL else self.full()
        else:
            top, refusal = yield from self.push(held[-1], held[0])
            if refusal:
                yield from self.free.give(held[-1], held[0])
        if refusal:
            return " ".join([refusal, "kept", *values])
        return " ".join([f"range {top.tag} {len(held)} kept", *values[len(held):]])

    def fold_in(self, name, is_reversed):
        while True:
            seen = self.top.load()
            refusal = self.nothing_to_take(seen)
            if refusal:
                return refusal
            yield
            if self.top.exchange(seen, seen.raised(NULL)):
                break
            yield
        chain = self.chain(seen.index)
        if is_reversed:
            chain.reverse()
            for above, below in zip(chain, chain[1:]):
                self.links.numbers[above] = below
        values = [self.values[node] for node in chain]
        yield from self.free.give(chain[0], chain[-1])
        return " ".join([f"{name} {seen.tag}", *values])

    def fold(self):
        return self.fold_in("fold", False)

    def rfold(self):
        return self.fold_in("rfold", True)

    def chain(self, first):
        nodes = []
        while first != NULL:
            nodes.append(first)
            first = self.links.numbers[first]
        return nodes

    def left(self):
        return [self.values[node] for node in self.chain(self.top.word.index)]

    def room(self):
        """How many more values it has room for."""
        return self.free.count()


class Queue:
    """The queue: cells with the values, nodes with the name of a cell each, a head and a tail that may lag."""

    operations = ("put", "take", "close", "shut", "look")

    def __init__(self, capacity, limit):
        self.log, self.limit = [], limit
        cell_links = Numbers([*range(1, capacity), NULL], "cell link", self.log)
        node_links = Numbers([NULL, *range(2, capacity + 1), NULL], "node link", self.log)
        self.cells = FreeList(Cell(Word(0), "CELLS", self.log), cell_links, limit)
        self.nodes = FreeList(Cell(Word(1), "NODES", self.log), node_links, limit)
        self.head, self.tail = Cell(Word(0), "HEAD", self.log), Cell(Word(0), "TAIL", self.log)
        self.next = [Cell(Word(NULL), f"next {node}", self.log) for node in range(capacity + 1)]
        self.data = Numbers([NULL] * (capacity + 1), "cell", self.log)
        self.values = [None] * capacity

    def end(self):
        """Goes to the end of the queue and helps a tail that lags. Answers the tail and the end's next word."""
        while True:
            tail = self.tail.load()
            yield
            following = self.next[tail.index].load()
            yield
            if self.tail.load() == tail:
                if following.closed or following.index == NULL:
                    return tail, following
                yield
                self.tail.try_exchange(tail, tail.raised(following.index))
            yield

    def put(self, value):
        cell, seen = yield from self.cells.take()
        if cell is None:
            if seen.index != NULL:
                return f"spent cells {seen.tag} {value}"
            yield
            _, following = yield from self.end()
            return f"closed {value}" if following.closed else f"full {value}"
        self.values[cell] = value
        yield
        node, seen = yield from self.nodes.take()
        if node is None:
            yield
            yield from self.cells.give(cell, cell)
            return f"spent nodes {seen.tag} {value}"
        yield
        self.data.store(node, cell)
        yield
        ready = self.next[node].load()
        yield
        if ready.tag + 2 > self.limit:
            yield from self.give_back(node, cell)
            return f"spent next {node} {ready.tag} {value}"
        self.next[node].store(Word(NULL, ready.tag + 1))
        yield
        while True:
            tail, following = yield from self.end()
            yield
            if following.closed:
                yield from self.give_back(node, cell)
                return f"closed {value}"
            if self.next[tail.index].exchange(following, following.raised(node)):
                break
            yield
        yield
        self.tail.try_exchange(tail, tail.raised(node))
        return f"put {tail.tag}"

    def give_back(self, node, cell):
        yield from self.nodes.give(node, node)
        yield
        yield from self.cells.give(cell, cell)

    def take(self):
        while True:
            head = self.head.load()
            if head.shut:
                return "shut"
            yield
            tail = self.tail.load()
            yield
            following = self.next[head.index].load()
            yield
            if self.head.load() == head:
                if following.closed:
                    return "closed"
                if following.index == NULL:
                    return "empty"
                yield
                if tail.index == head.index:
                    self.tail.try_exchange(tail, tail.raised(following.index))
                else:
                    cell = self.data.load(following.index)
                    yield
                    if self.head.exchange(head, head.raised(following.index)):
                        break
            yield
        value = self.values[cell]
        yield
        yield from self.give_back(head.index, cell)
        return f"take {head.tag} {value}"

    def close(self):
        while True:
            tail, following = yield from self.end()
            if following.closed:
                return "close false"
            yield
            if self.next[tail.index].exchange(following, following.raised(NULL)._replace(closed=True)):
                return "close true"
            yield

    def shut(self):
        while True:
            head = self.head.load()
            if head.shut:
                return "shut false"
            yield
            if self.head.exchange(head, head._replace(shut=True)):
                return "shut true"
            yield

    def look(self):
        while True:
            head = self.head.load()
            yield
            following = self.next[head.index].load()
            yield
            if self.head.load() == head:
                return "look some" if following.index != NULL and not following.closed else "look empty"
            yield

    def left(self):
        values, node = [], self.next[self.head.word.index].word.index
        while node != NULL:
            values.append(self.values[self.data.numbers[node]])
            node = self.next[node].word.index
        return values

    def room(self):
        """How many more values it has room for."""
        return self.cells.count()


def place_of(operation):
    """Where an operation stands: the lines of this file at which it, and each part of it, goes on."""
    lines = []
    while operation is not None:
        lines.append(operation.gi_frame.f_lineno)
        operation = operation.gi_yieldfrom
    return tuple(lines)


def finished(operation):
    """The answer of an operation that runs to its end."""
    while True:
        try:
            next(operation)
        except StopIteration as end:
            return end.value


class Player:
    """Plays the lines of one script."""

    def __init__(self, container):
        self.container, self.begun = container, {}

    def reply(self, line):
        """The reply to a line. There are always passes to be had."""
        words = line.split(" ")
        if words == ["finish"]:
            return " ".join(["rest", *self.container.left()])
        name, act, given = words[0], words[1], words[2:]
        if act == "step":
            return self.step(name, int(given[0])) if name in self.begun else "nothing begun"
        if act == "drop":
            return "dropped" if self.begun.pop(name, None) else "nothing begun"
        if name in self.begun or act == "meet" and given[0] in self.begun:
            return "busy"
        if act == "meet":
            return "met"
        if act == "begin":
            self.begun[name] = [getattr(self.container, given[0])(*given[1:]), 0]
            return "begun"
        return finished(getattr(self.container, act)(*given))

    def traced(self, line):
        """The reply to a line, and the lines of its trace. The steps of a range and of a fold are not shown."""
        name, act = [*line.split(" "), ""][:2]
        made = self.begun[name][1] if name in self.begun else 0
        self.container.log.clear()
        reply = self.reply(line)
        if act in ("range", "fold", "rfold") and reply != "busy":
            return reply, [f"{name} whole {act}"]
        return reply, [f"{name} {number} {step}" for number, step in enumerate(self.container.log, made + 1)]

    def step(self, name, count):
        begun = self.begun[name]
        for _ in range(count):
            begun[1] += 1
            try:
                next(begun[0])
            except StopIteration as end:
                del self.begun[name]
                return f"{end.value} steps {begun[1]}"
        return f"again {begun[1]}"


def player_of(line):
    """A player of the container that this first line makes."""
    kind, capacity, limit = line.split(" ")
    return Player({"stack": Stack, "queue": Queue}[kind](int(capacity), int(limit)))


def replies(lines):
    """The replies to a script, the line that makes the container first."""
    player = player_of(lines[0])
    return [player.reply(line) for line in lines[1:]]


def traces(lines):
    """The replies to a script, and the lines of its trace."""
    player = player_of(lines[0])
    traced = [player.traced(line) for line in lines[1:]]
    return [reply for reply, _ in traced], [step for _, steps in traced for step in steps]


def script(kind, random):
    """A random script of this container: short of room and of tags, with many operations under way."""
    limit = random.choice((2, 3, 4, 5, 7, 9, 15, 60, 4398046511103))
    lines = [f"{kind} {random.choice((1, 1, 2, 2, 3, 4))} {limit}"]
    player = player_of(lines[0])
    container = type(player.container)
    passes = "abcd"[: random.choice((1, 2, 3, 3, 4))]
    values = (f"v{number}" for number in range(1, 1 << 20))
    for _ in range(random.randrange(4, 60)):
        lines.append(line_by_chance(container, player, passes, values, random))
        player.reply(lines[-1])
    if random.random() < 0.9:
        lines.append("finish")
    return lines


def line_by_chance(container, player, passes, values, random):
    """A line that mostly finds its pass as the line needs it."""
    busy = [name for name in passes if name in player.begun]
    resting = [name for name in passes if name not in player.begun]
    if busy and (not resting or random.random() < 0.5):
        act = "drop" if random.random() < 0.03 else f"step {random.choice((1, 1, 1, 2, 3, 4, 5, 7, 20))}"
        usual = busy
    else:
        act, usual = call_by_chance(container, values, random), resting
    name = random.choice(passes if random.random() < 0.05 else usual)
    if act == "meet":
        others = passes.replace(name, "") or "z"
        act = f"meet {random.choice(others)}"
    return f"{name} {act}"


def call_by_chance(container, values, random):
    """Any act but a step and a drop. Closing and shutting end most of what a script can show, so they are rare."""
    rare = random.random() < 0.06
    act = random.choice(("close", "shut") if rare else ("put", "put", "put", "take", "take", "look"))
    choice = random.random()
    if choice < 0.05:
        return "meet"
    if choice < 0.2 and container is Stack:
        act = random.choice(("range", "fold", "rfold"))
        return " ".join([act, *(next(values) for _ in range(random.randrange(5)) if act == "range")])
    words = f"put {next(values)}" if act == "put" else act
    return f"begin {words}" if choice < 0.7 and act in container.operations else words
