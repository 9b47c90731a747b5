"""Random programs by Python answer as the same schedules do by the replay, and leave the same book."""
import os
import random
import unittest

import occ
from occ import native
from occ.spelling import Form

TABLES = {"ints": ("num", "int"), "texts": ("text", "int", "text"), "pairs": ("num+text", "text")}
PLAIN = set(b"abcdefghijklmnopqrstuvwxyzABCDEFGHIJKLMNOPQRSTUVWXYZ0123456789_-.")
SESSIONS, SEED = 3, 20261128


def spelled(value):
    """A key or a cell as the formats spell it."""
    if isinstance(value, int):
        return str(value)
    return "'" + "".join(chr(byte) if byte in PLAIN else f"%{byte:02x}" for byte in value.encode())


def key_text(key):
    return "+".join(map(spelled, key)) if isinstance(key, tuple) else spelled(key)


def row_text(row):
    return ",".join(map(spelled, row)) if isinstance(row, tuple) else spelled(row)


def end_text(key):
    return "*" if key is None else key_text(key)


class Program:
    """A store of which each call is a line of a schedule too."""

    def __init__(self, seed):
        self.chance = random.Random(seed)
        keep = self.chance.choice((1, 2, 8))
        self.header = f"occ 2\nsessions {SESSIONS}\nqueue 1\nkeep {keep}\n" + "".join(f"table {name} {' '.join(kinds)}\n" for name, kinds in TABLES.items()) + "steps\n"
        self.store = native.open_store(self.header.encode())
        self.workers = [native.Worker(self.store) for _ in range(SESSIONS)]
        self.forms = {name: (place, Form(kinds[0], kinds[1:])) for place, (name, kinds) in enumerate(TABLES.items())}
        self.open = [False] * SESSIONS
        self.numbers = [1] * SESSIONS
        self.lines, self.answers = [], []

    def key(self, name):
        text = self.chance.choice(("", "a", "b b", "é", "x" * 64))
        if self.chance.random() < 0.02:
            text = "y" * 65
        number = self.chance.choice((0, 1, 2, 3, 2**64 - 1))
        return {"ints": number, "texts": text, "pairs": (number, text)}[name]

    def row(self, name):
        number = self.chance.choice((-2**63, -1, 0, 1, 2**63 - 1))
        text = self.chance.choice(("", "'", "a,b", "é", "z" * 256))
        if self.chance.random() < 0.02:
            text = "z" * 257
        return {"ints": number, "texts": (number, text), "pairs": text}[name]

    def ends(self, name):
        return self.chance.choice((None, self.key(name))), self.chance.choice((None, self.key(name)))

    def told(self, line, call, told):
        """A line of the schedule, and what is answered to it; whether it was refused."""
        self.lines.append(line)
        try:
            value = call()
        except occ.Error as fault:
            self.answers.append(f"refused F{fault.code}" if fault.code < 100 else "backup conflict" if fault.code == 100 else "backup tooold")
            return False
        self.answers.append(told(value))
        return True

    def rows(self, form, data, apart=" ", before=" "):
        rows = form.read_rows(data)
        return f"rows{before}{len(rows)}" + "".join(f"{apart}{key_text(key)}={row_text(row)}" for key, row in rows)

    def turn(self):
        session = self.chance.randrange(SESSIONS)
        worker, name = self.workers[session], self.chance.choice(list(TABLES))
        place, form = self.forms[name]
        number, said = session + 1, self.chance.random()
        if said < 0.2:
            if self.told(f"begin {number}", worker.begin, lambda _: "begun"):
                self.open[session] = True
        elif said < 0.4:
            key = self.key(name)
            self.told(f"get {number} {name} {key_text(key)}", lambda: worker.get(place, form.key(key)),
                      lambda row: "none" if row is None else f"row {row_text(form.read_row(row)[0])}")
        elif said < 0.55:
            key, row = self.key(name), self.row(name)
            self.told(f"put {number} {name} {key_text(key)} {row_text(row)}", lambda: worker.put(place, form.key(key), form.row(row)), lambda _: "ok")
        elif said < 0.6:
            key = self.key(name)
            self.told(f"delete {number} {name} {key_text(key)}", lambda: worker.delete(place, form.key(key)), lambda _: "ok")
        elif said < 0.7:
            lower, upper = self.ends(name)
            self.told(f"scan {number} {name} {end_text(lower)} {end_text(upper)}",
                      lambda: worker.scan(place, form.end(lower), form.end(upper)), lambda data: self.rows(form, data))
        elif said < 0.85:
            self.commit(session)
        elif said < 0.9:
            if self.told(f"abandon {number}", worker.abandon, lambda _: "ok"):
                self.open[session] = False
        elif said < 0.95:
            self.alone(session)
        else:
            self.told("checkpoint", worker.checkpoint, lambda rows: f"folded {rows}")

    def commit(self, session):
        if not self.open[session]:
            return
        self.lines.append(f"submit {session + 1}")
        self.answers.append("queued")
        self.told(f"serial {session + 1}", self.workers[session].commit, lambda tn: f"finished {tn}")
        self.open[session] = False

    def alone(self, session):
        worker, words, asked = self.workers[session], [], []
        for _ in range(self.chance.randrange(4)):
            name, kind = self.chance.choice(list(TABLES)), self.chance.randrange(5)
            place, form = self.forms[name]
            key, row = self.key(name), self.row(name)
            if kind == 3 and name != "ints":
                continue
            lower, upper = self.ends(name)
            first, second = (form.end(lower), form.end(upper)) if kind == 4 else (form.key(key), form.row(row) if kind in (1, 3) else b"")
            worker.add(kind, place, first, second)
            words.append([f"get:{name}:{key_text(key)}", f"put:{name}:{key_text(key)}:{row_text(row)}", f"delete:{name}:{key_text(key)}",
                          f"add:{name}:{key_text(key)}:{row_text(row)}", f"scan:{name}:{end_text(lower)}:{end_text(upper)}"][kind])
            if kind in (0, 4):
                asked.append((form, kind == 4))
        if not words:
            return
        line = f"alone {session + 1} {' '.join(words)}"
        try:
            tn, _ = worker.run()
        except occ.Error as fault:
            self.lines.append(line)
            self.answers.append(f"refused F{fault.code}")
            return
        self.lines += [line, f"serial {session + 1}"]
        told = []
        for at, (form, ranged) in enumerate(asked):
            data = worker.answer(at, ranged)
            told.append(self.rows(form, data or b"", ":", ":") if ranged else "none" if data is None else f"row:{row_text(form.read_row(data)[0])}")
        self.answers += ["queued", " ".join([f"finished {tn}", *told])]

    def close(self):
        book = self.workers[0].book().decode()
        for worker in self.workers:
            worker.close()
        native.close_store(self.store)
        return book


def without_numbers(line):
    """An answer without the session's own number and the start, which Python doesn't tell."""
    word = line.split(" ")[0]
    return word if word in ("begun", "queued") else line


class Programs(unittest.TestCase):
    def test_random_programs_answer_as_schedules(self):
        for turn in range(int(os.environ.get("OCC_PROGRAMS", "300"))):
            program = Program(SEED + turn)
            for _ in range(program.chance.randrange(5, 60)):
                program.turn()
            book = program.close()
            schedule = program.header + "".join(f"{line}\n" for line in program.lines)
            told = occ.replay(schedule)
            count = len(program.lines)
            lines = told.splitlines()
            self.assertEqual(program.answers, [without_numbers(line) for line in lines[:count]], schedule)
            self.assertEqual(book + "audit yes\n", "".join(f"{line}\n" for line in lines[count:]), schedule)
            self.assertTrue(occ.audit(book))


if __name__ == "__main__":
    unittest.main()
