"""Draws schedules by seed, and has a world of the model answer each line as it is drawn."""

from __future__ import annotations

import random
from collections import Counter
from typing import Callable, Collection, Dict, List, NamedTuple, Optional, Sequence, Tuple

from .choosing import STRAY_JOBS, TASKS, Chooser
from .crowding import CROWDS, QUOTA
from .facts import check_world
from .ids import ObjectId
from .messages import DIRECTORY, Place
from .schedule import answer
from .store import PrivateStore
from .words import CHUNK, DEEPEST, UNIT
from .world import World

# how often each command is drawn
WEIGHTS = {
    "create": 16,
    "copy": 5,
    "write": 7,
    "seal": 20,
    "get": 20,
    "read": 8,
    "release": 14,
    "unpin": 3,
    "borrow": 4,
    "giveup": 3,
    "delete": 5,
    "endtask": 1,
    "grant": 6,
    "withdraw": 5,
    "peek": 6,
    "list": 4,
    "usage": 4,
    "leave": 1,
}
# how often a command's values are drawn without a look at what exists, and how many commands are tried if nothing fits
WILD = 0.12
TRIES = 4
# how often each word met each kind of answer
Tally = Counter[Tuple[str, str]]
STEPS_BETWEEN_CHECKS = 10


class Size(NamedTuple):
    """What the objects and windows of a schedule are like, in bytes."""

    lengths: Sequence[int]
    windows: Sequence[int]
    device_quotas: Sequence[int]
    memories: Sequence[int]
    steps: Sequence[int]


SMALL = Size(range(1, 50), range(48, 176, UNIT), range(0, 1024, UNIT), range(384, 1280), range(100, 320))
# objects of more than one chunk
LARGE = Size(
    [CHUNK - 1, CHUNK, CHUNK + 1, CHUNK + 20000, 2 * CHUNK, 2 * CHUNK + 17, 3 * CHUNK - 5],
    range(4 * CHUNK, 8 * CHUNK, CHUNK // 2),
    range(0, 16 * CHUNK, CHUNK),
    range(16 * CHUNK, 40 * CHUNK),
    range(60, 120),
)


class Drawn(NamedTuple):
    """A schedule with the model's answers, one for each line, and its journal."""

    nodes: int
    memory: int
    lines: List[str]
    answers: List[str]
    journal: str


def draw(seed: int, without: Collection[str] = (), tally: Optional[Tally] = None) -> Drawn:
    """The schedule of a seed, which has none of the commands `without`."""
    return Drawing(seed, without, Counter() if tally is None else tally).schedule()


class Drawing:
    """A schedule that is being drawn. What the world has by then says what may be drawn next."""

    def __init__(self, seed: int, without: Collection[str], tally: Tally) -> None:
        self.lot = random.Random(seed)
        self.size = LARGE if self.lot.random() < 0.08 else SMALL
        self.world = World(self.lot.choice([1, 1, 2, 2, 3]), self.lot.choice(self.size.memories))
        self.chooser = Chooser(self.lot, self.world, self.size.lengths)
        self.words = [word for word in WEIGHTS if word not in without]
        self.lines: List[str] = []
        self.answers: List[str] = []
        self.tally = tally
        # how many messages of each link were handed over in turn, or lost
        self.handed: Dict[Tuple[int, Place, Place], int] = {}

    def schedule(self) -> Drawn:
        for node in range(len(self.world.nodes)):
            for _ in range(self.lot.randint(2, 4)):
                self.admit_next(node)
        steps = self.lot.choice(self.size.steps)
        crowd_at = self.lot.randrange(8 * steps)
        for step in range(steps):
            if step == crowd_at:
                self.crowd()
            self.draw_step()
            if step % STEPS_BETWEEN_CHECKS == 0:
                check_world(self.world)
        world = self.world
        return Drawn(len(world.nodes), world.nodes[0].memory, self.lines, self.answers, world.journal.text)

    def say(self, line: str, word: Optional[str] = None) -> str:
        """Adds a line, which is counted under a word of its own or its first one."""
        said = answer(self.world, line)
        self.lines.append(line)
        self.answers.append(said)
        self.tally[word or line.split(" ")[0], kind_of(said)] += 1
        return said

    def likely(self, chance: float) -> bool:
        return self.lot.random() < chance

    def draw_step(self) -> None:
        """A step, or a few that belong together, or none if a message is lost."""
        links = self.waiting_links()
        untaken = any(node.untaken for node in self.world.nodes)
        kept = any(node.kept for node in self.world.nodes)
        steps: Dict[Callable[[], object], float] = {
            self.draw_command: 60,
            self.draw_operator: 2.5,
            self.draw_take: 20 if untaken else 0.2,
            self.draw_finish: 20 if kept else 0.2,
            self.draw_deliver: min(1 + 6 * len(links), 35),
            self.draw_transfer: 5 if len(self.world.nodes) > 1 else 0,
            self.draw_squeeze: 3,
            self.draw_handing_on: 1.5 if "grant" in self.words else 0,
        }
        self.lot.choices(list(steps), list(steps.values()))[0]()

    # the operator

    def admit_next(self, node: int, quota: Optional[Tuple[int, int]] = None) -> bool:
        """Admits a job with a number that is still free at the node."""
        job = self.world.nodes[node].greatest_job + self.lot.choice([1, 1, 1, 2])
        window, device_quota = quota or self.draw_quota()
        return self.say(f"admit {node} {job} {window} {device_quota}").endswith("ok")

    def draw_quota(self) -> Tuple[int, int]:
        if self.likely(0.03):
            return self.lot.choice([0, 7, 8, 24, 1 << 29, 1 << 63]), 0
        if self.likely(0.02):
            return UNIT, (1 << 40) + self.lot.randrange(2)
        return self.lot.choice(self.size.windows), self.lot.choice(self.size.device_quotas)

    def draw_operator(self) -> None:
        node, job = self.draw_seat()
        word = self.lot.choices(["admit", "admit_any", "quota", "end"], [2, 1, 5, 1])[0]
        window, device_quota = self.draw_quota()
        if word == "admit":
            self.admit_next(node)
        elif word == "admit_any":
            self.say(f"admit {node} {self.lot.randrange(STRAY_JOBS)} {window} {device_quota}")
        elif word == "quota":
            self.say(f"quota {node} {job} {window} {device_quota}")
        else:
            self.say(f"end {node} {job}")

    def draw_seat(self) -> Tuple[int, int]:
        """A node and a job, which mostly is live there."""
        node = self.lot.randrange(len(self.world.nodes))
        live = list(self.world.nodes[node].windows)
        if not live or self.likely(0.02):
            return node, self.lot.randrange(1, STRAY_JOBS)
        return node, self.lot.choice(live)

    # workers

    def draw_take(self) -> None:
        nodes = [node.number for node in self.world.nodes if node.untaken] or range(len(self.world.nodes))
        self.say(f"take {self.lot.choice(nodes)}")

    def draw_finish(self) -> None:
        works = [(node.number, *work) for node in self.world.nodes for work in node.kept]
        if not works or self.likely(0.05):
            node, job = self.draw_seat()
            works = [(node, job, self.lot.randrange(4))]
        way = self.lot.choices(["ok", "fail", "damage"], [6, 1, 1])[0]
        self.say("finish {} {} {} {}".format(*self.lot.choice(works), way), f"finish {way}")

    def draw_work(self) -> None:
        """Takes a work, or finishes one, whichever there is."""
        untaken = any(node.untaken for node in self.world.nodes)
        kept = any(node.kept for node in self.world.nodes)
        if untaken and (not kept or self.likely(0.5)):
            self.draw_take()
        elif kept:
            self.draw_finish()

    # links

    def waiting_links(self) -> List[Tuple[int, Place, Place]]:
        return [link for link, sent in self.world.sent.items() if self.handed.get(link, 0) < len(sent)]

    def draw_deliver(self) -> None:
        links = self.waiting_links()
        if not links or self.likely(0.05):
            self.draw_stray_deliver()
            return
        self.hand_over(self.lot.choice(links))

    def hand_over(self, link: Tuple[int, Place, Place]) -> None:
        """The next message of a link, or one out of turn. Some are lost."""
        number = self.handed.get(link, 0) + 1
        if self.likely(0.12):
            number = self.lot.randint(1, len(self.world.sent[link]))
        else:
            self.handed[link] = number
        if self.likely(0.95):
            self.say_deliver(link, number)

    def draw_transfer(self) -> None:
        """Gets what the job has at another node, again and again, and hands over most of what is sent for it."""
        node, job = self.draw_seat()
        remote = self.chooser.remote(self.world.nodes[node].store(job))
        if not remote:
            return
        one = self.lot.choice(remote)
        for _ in range(self.lot.randint(2, 4)):
            self.say_command(node, job, self.chooser.session(), "get", [one])
            for _ in range(self.lot.randint(2, 10)):
                links = [link for link in self.waiting_links() if link[0] == job]
                if links:
                    self.hand_over(self.lot.choice(links))

    def draw_stray_deliver(self) -> None:
        """What was handed over before, or was never sent."""
        places: List[Place] = [DIRECTORY, *range(len(self.world.nodes))]
        stray = (self.lot.randrange(STRAY_JOBS), self.lot.choice(places), self.lot.choice(places))
        link = self.lot.choice([stray, *self.world.sent])
        self.say_deliver(link, self.lot.randint(0, len(self.world.sent.get(link, [])) + 1))

    def say_deliver(self, link: Tuple[int, Place, Place], number: int) -> None:
        damage = " damage" if self.likely(0.06) else ""
        sent = self.world.sent.get(link, [])
        message = type(sent[number - 1]).__name__ if 1 <= number <= len(sent) else "nothing"
        self.say("deliver {} {} {} {}{}".format(*link, number, damage), f"deliver {message}{damage}")

    # sessions

    def draw_command(self) -> None:
        node, job = self.draw_seat()
        store = self.world.nodes[node].store(job)
        word, session, values = self.choose_command(store)
        self.say_command(node, job, session, word, values)

    def choose_command(self, store: PrivateStore) -> Tuple[str, int, Sequence[object]]:
        """A command that fits, or if none is found or by lot, one that needn't."""
        words = self.lot.choices(self.words, [WEIGHTS[word] for word in self.words], k=TRIES)
        if not self.likely(WILD):
            for word in words:
                chosen = self.chooser.fitting(store, word)
                if chosen is not None:
                    return (word, *chosen)
        return (words[0], *self.chooser.wild(store, words[0]))

    def say_command(self, node: int, job: int, session: int, word: str, values: Sequence[object]) -> str:
        texts = [self.text_of(job, value) for value in values]
        return self.say(" ".join(["cmd", str(node), str(job), str(session), word, *texts]), word)

    def text_of(self, speaker: int, value: object) -> str:
        if isinstance(value, ObjectId):
            return value.full_text() if self.likely(0.05) else value.text(speaker)
        if isinstance(value, bytes):
            return value.hex() or "-"
        return str(value)

    def draw_squeeze(self) -> None:
        """Asks for as much room as may come, has works carried out for it, and gets back what went away."""
        node, job = self.draw_seat()
        store = self.world.nodes[node].store(job)
        objects = self.chooser.new_objects(store)
        length = self.chooser.most_room(store)
        if not objects or not length:
            return
        one, _ = self.lot.choice(objects)
        while self.say_command(node, job, self.chooser.session(), "create", [one, length]).endswith("Pending"):
            for _ in range(self.lot.randint(0, 2 * len(store.works))):
                self.draw_work()
            if self.likely(0.3):
                break
        if one in store.copies and self.likely(0.8):
            self.say_command(node, job, self.chooser.session(), "delete", [one])
        for away in self.chooser.away(store):
            self.say_command(node, job, self.chooser.session(), "get", [away])
            for _ in range(self.lot.randint(0, 3)):
                self.draw_work()

    def draw_handing_on(self) -> None:
        """Hands an object on from job to job, at times further than it may be."""
        node, grantor = self.draw_seat()
        live = list(self.world.nodes[node].windows)
        objects = self.chooser.grantable(self.world.nodes[node].store(grantor))
        if not objects or not live:
            return
        one = self.lot.choice(objects)
        for _ in range(self.lot.randint(2, DEEPEST + 1)):
            grantee = self.lot.choice([job for job in live if job not in (grantor, one.job)] or live)
            self.say_command(node, grantor, self.chooser.session(), "grant", [one, grantee])
            grantor = grantee

    # limits

    def crowd(self) -> None:
        """Takes a new job of a node to one of its limits, if there is room for it."""
        node = self.lot.randrange(len(self.world.nodes))
        if not self.admit_next(node, QUOTA):
            return
        job = self.world.nodes[node].greatest_job
        crowds = [crowd for crowd in CROWDS if crowd.word in self.words]
        crowd = self.lot.choices(crowds, [crowd.weight for crowd in crowds])[0]
        crowd.draw(lambda word, *values: self.say_command(node, job, 1, word, values), ObjectId(TASKS[0], job, 1))


def kind_of(said: str) -> str:
    """Of an answer what is counted: a refusal with its number and name, otherwise the first word."""
    fields = said.split(" ")
    answered = fields[3:] if fields[0].startswith("n") and fields[1].startswith("j") else fields[2:]
    if fields[0] == "net":
        answered = fields[1:]
    if answered[0] == "work":
        return f"work {answered[3]}"
    return " ".join(answered[1:]) if answered[0] == "refused" else answered[0]
