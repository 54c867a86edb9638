"""Random jobs: drawings, programs, values at and next to every limit, faults of every kind, texts that are refused.

A job is a row of words that are joined to a text with random spaces and remarks. The same seed gives the same jobs.
"""

import random

THIN_OPERATORS = "moves lines fills greys shows".split()
OPERATORS = """adds takes multiplies divides is-less copies drops swaps defines repeats when
    moves lines fills clips-by greys shifts scales keeps back shows""".split()
COORDINATES_END = 1 << 24
RESULTS_END = 1 << 31


# Jobs on both sides of each limit of the whole machine, one to a line.
EDGES = """
256 { 1 } repeats shows
257 { 1 } repeats shows
255 { {} } repeats copies shows
256 { {} } repeats copies shows
/f { 1 takes copies { f } when } defines 31 f shows
/f { 1 takes copies { f } when } defines 32 f shows
/f { 1 takes copies { f } when } defines 1 { 31 f shows } when shows
/f { 1 takes copies { f } when } defines 1 { 1 { 31 f shows } when } when shows
/f { 1 takes copies { f } when 0 { } repeats } defines 1 { 31 f } repeats shows
/f { f } defines shows f
1 1 moves 1023 { 1 9 lines } repeats fills shows
1 1 moves 1024 { 1 9 lines } repeats fills shows
1024 { 0 0 moves } repeats shows
1025 { 0 0 moves } repeats shows
1024 { 0 0 moves } repeats 0 1048576 moves
1024 { 0 0 moves } repeats 0 1048576 lines
1048576 0 lines
15 { keeps } repeats keeps shows 16 { back } repeats shows back
17 { keeps } repeats shows
1024 { clips-by } repeats shows
1025 { clips-by } repeats shows
1023 { 0 0 moves } repeats clips-by shows
1024 { 0 0 moves } repeats clips-by shows
keeps 1024 { clips-by } repeats back clips-by shows
0 0 moves 0 9 lines 9 0 lines clips-by 1020 { clips-by } repeats shows
0 0 moves 0 9 lines 9 0 lines clips-by 1021 { clips-by } repeats shows
65535 scales 256 0 moves shows 257 0 moves
65536 scales shows
3 scales keeps 349525 scales back shows 349526 scales shows
1 scales keeps 1048575 scales back shows 1048576 scales shows
0 scales 2147483647 2147483647 moves 2147483647 scales shows
1048575 1048575 moves shows 1048576 0 moves
0 1048576 moves
1 scales 16777215 16777215 shifts 0 0 moves shows 1 0 moves
1 scales 16777215 16777215 shifts 0 0 shifts shows 0 1 shifts
2147483647 0 adds drops shows 2147483647 1 adds
2147483646 1 adds drops shows 1073741824 1073741824 adds
46340 46340 multiplies drops shows 46341 46341 multiplies
65535 32768 multiplies drops shows 65536 32768 multiplies
2147483647 2147483647 multiplies
7 7 takes drops shows 7 8 takes
7 1 divides drops shows 0 7 divides drops shows 7 0 divides
7 8 is-less { shows } when 8 8 is-less { shows } when
255 greys shows 256 greys
2 { shows } when 0 { shows } when 2147483647 { shows } when
/x 5 defines /x { shows } defines x /x /y defines x drops shows y
""".strip().split("\n")

# Jobs on both sides of each limit that the first stage has too.
THIN_EDGES = [
    "1 " * 256 + "shows", "1 " * 257 + "shows", "{}" * 256 + "shows", "/x " * 256 + "shows 1",
    "1 1 moves " + "1 9 lines " * 1023 + "fills shows", "1 1 moves " + "1 9 lines " * 1024 + "fills shows",
    "0 0 moves " * 1024 + "shows", "0 0 moves " * 1025 + "shows",
    "0 0 moves " * 1024 + "1048576 0 moves", "0 0 moves " * 1024 + "1048576 0 lines",
    "1048575 1048575 moves shows 1048576 0 moves", "1048575 1048575 moves shows 0 1048576 moves", "1048576 0 lines",
    "0 0 moves 1048575 0 lines 1048575 1048575 lines fills shows", "255 greys shows 256 greys",
    "0 0 moves shows 1 1 lines", "{ } 1 moves", "1 { } moves", "{ } moves", "/x greys", "{} { 4 scales } shows",
    "{" * 32 + "}" * 32 + " shows", "{" * 33 + "}" * 33 + " shows", "a" * 31, "a" * 32, "/" + "a" * 31, "/" + "a" * 32,
    "2147483647 shows", "2147483648 shows", "00000000000002147483647 shows", "18446744073709551616 shows",
    "-5", "5a", "5%", "x%y", "/x%y", "x/y", "//x", "/ x", "/{", "/", "{", "}", "1\r", "\t1", "%\r\t}\n}",
    "5 " * 65535 + "{", "5 " * 65534 + "{}", "5 " * 65535 + "{}",
]

# Texts that are filled with spaces up to so many bytes.
LONG_EDGES = [("shows", (1 << 24) - 1), ("shows", 1 << 24), ("shows }", 1 << 24)]


class Job:
    """A text, the size of its pages, and more steps than it should take."""

    def __init__(self, kind, text, width, height, steps):
        self.kind, self.text, self.width, self.height, self.steps = kind, text, width, height, steps


class State:
    """Scale and corner as the machine should have them, so that shapes are on the page."""

    def __init__(self, scale=16, left=0, top=0):
        self.scale, self.left, self.top = scale, left, top

    def copy(self):
        return State(self.scale, self.left, self.top)


class Generator:
    def __init__(self, seed, thin):
        self.random = random.Random(seed)
        self.thin = thin
        self.width, self.height = (self.pick(1, 5, 8, 16, 31, 33, 40, *[self.random.randint(1, 40)] * 4) for _ in "wh")
        self.state = State()
        self.kept = []
        self.names = 0

    # Chance.

    def chance(self, share):
        return self.random.random() < share

    def pick(self, *choices):
        return self.random.choice(choices)

    def near(self, limit):
        """The last value within a limit, one less, or one more."""
        return limit + self.pick(-1, 0, 0, 1, 1)

    # Names and numbers.

    def letters(self, length):
        return "".join(self.random.choice("abcdefghijklmnopqrstuvwxyz-") for _ in range(length))

    def new_name(self):
        """A name that no other in this job is: its number in letters, with a word around it."""
        self.names += 1
        k, letters = self.names, ""
        while k:
            k, letters = k // 26, letters + "abcdefghijklmnopqrstuvwxyz"[k % 26]
        return self.pick("n-", "x", "shows-", "-") + letters

    def number(self, value, depth=2):
        """Words that leave this number on the stack."""
        if self.thin or depth == 0 or self.chance(0.8):
            return ["0" * self.pick(0, 0, 0, 0, 1, 5) + str(value)]
        return self.calculation(value, depth - 1)

    def calculation(self, value, depth):
        part = self.random.randint(0, value)
        factor = self.random.randint(1, 9)
        number = lambda n: self.number(n, depth)
        ways = [
            lambda: number(part) + number(value - part) + ["adds"],
            lambda: number(min(value + part, RESULTS_END - 1)) + number(min(value + part, RESULTS_END - 1) - value) + ["takes"],
            lambda: number(value) + ["copies", "drops"],
            lambda: number(part) + number(value) + ["swaps", "drops"],
            lambda: self.through_name(number(value)),
            lambda: self.through_when(number(value)),
        ]
        if value * factor + factor - 1 < RESULTS_END:
            rest = self.random.randint(0, factor - 1)
            ways.append(lambda: number(value * factor + rest) + number(factor) + ["divides"])
        if value % factor == 0:
            ways.append(lambda: number(value // factor) + number(factor) + ["multiplies"])
        if value < 2:
            ways.append(lambda: self.comparison(value))
        return self.random.choice(ways)()

    def comparison(self, value):
        a = self.random.randint(0, 5)
        b = a + self.random.randint(1, 3) if value else self.random.randint(0, a)
        return [str(a), str(b), "is-less"]

    def through_name(self, words):
        name = self.new_name()
        quoted = "/" + name
        if self.chance(0.5):
            return [quoted] + words + ["defines", name]
        return [quoted, "{"] + words + ["}", "defines", name]

    def through_when(self, words):
        """The words in a body that is run, or before one that is not."""
        if self.chance(0.5):
            return self.number(self.pick(1, 2, RESULTS_END - 1), 0) + ["{"] + words + ["}", "when"]
        return words + ["0", "{", self.pick("drops", "shows", "nowhere", "back"), "}", self.pick("when", "repeats")]

    # Shapes. Places are chosen in sixteenths of a dot and then written in units of the scale and corner.

    def place(self, dots):
        dot = 16 * self.random.randint(0, dots)
        return self.pick(dot, dot, dot + 8, dot + 8, dot + 7, dot + 9, dot + self.random.randint(0, 15),
                         self.random.randint(0, 32 * dots), 0)

    def units(self, sixteenths, corner):
        if self.state.scale == 0 or sixteenths < corner:
            return 0
        return (sixteenths - corner) // self.state.scale

    def point(self, x, y):
        return self.number(self.units(x, self.state.left)) + self.number(self.units(y, self.state.top))

    def random_point(self):
        if self.chance(0.02):
            return self.far_point()
        return self.point(self.place(self.width), self.place(self.height))

    def far_point(self):
        far = COORDINATES_END - 1
        return self.point(self.pick(far, self.place(self.width)), self.pick(far, self.place(self.height)))

    def ring(self, points):
        words = []
        for i, point in enumerate(points):
            words += point + ["lines" if i else "moves"]
        return words

    def polygon(self):
        return self.ring([self.random_point() for _ in range(self.pick(1, 2, 3, 3, 3, 4, 5, 8, 13))])

    def rectangle(self):
        left, right, top, bottom = (self.place(n) for n in (self.width, self.width, self.height, self.height))
        corners = [(left, top), (right, top), (right, bottom), (left, bottom)]
        if self.chance(0.5):
            corners.reverse()
        return self.ring([self.point(x, y) for x, y in corners])

    def large_rectangle(self):
        """From the first third of the page to the last, or beyond."""
        left, top = self.place(self.width // 3), self.place(self.height // 3)
        right, bottom = (16 * n - self.place(n // 3) for n in (self.width, self.height))
        return self.ring([self.point(x, y) for x, y in [(left, top), (right, top), (right, bottom), (left, bottom)]])

    def whole_page(self):
        right, bottom = 16 * self.width, 16 * self.height
        return self.ring([self.point(x, y) for x, y in [(0, 0), (right, 0), (right, bottom), (0, bottom)]])

    def zigzag(self):
        """Levels met from above and from below, and horizontal edges on them."""
        points = []
        x = 0
        for _ in range(self.random.randint(3, 12)):
            x += self.pick(0, 8, 16, 24, 5)
            points.append(self.point(x, self.pick(8, 8, 24, 24, 16, 40)))
        return self.ring(points)

    def path(self):
        shape = lambda: self.pick(self.polygon, self.polygon, self.rectangle, self.rectangle, self.large_rectangle, self.zigzag)()
        words = []
        for _ in range(self.pick(0, 1, 1, 1, 1, 1, 2, 3)):
            words += shape()
        return words

    def grey(self):
        return self.number(self.pick(0, 0, 0, 255, 128, 1, 254, self.random.randint(0, 255))) + ["greys"]

    def drawing(self):
        """A thing painted, or what changes how the next is painted."""
        ways = [lambda: self.path() + ["fills"]] * 8 + [self.grey] * 2 + [lambda: ["shows"], self.path]
        return self.random.choice(ways)()

    # What only the whole language has.

    def scale(self):
        wanted = self.pick(1, 2, 4, 8, 8, 8, 16, 16, 32, 3, 5, 24)
        if self.state.scale == 0:
            return []
        n = -(-16 * wanted // self.state.scale)
        self.state.scale = self.state.scale * n // 16
        return self.number(n) + ["scales"]

    def shift(self):
        a = self.units(self.state.left + self.pick(8, 16, 5, 24), self.state.left)
        b = self.units(self.state.top + self.pick(0, 8, 16, 5), self.state.top)
        self.state.left += a * self.state.scale
        self.state.top += b * self.state.scale
        return self.number(a) + self.number(b) + ["shifts"]

    def keep(self):
        self.kept.append(self.state.copy())
        return ["keeps"]

    def back(self):
        if self.kept:
            self.state = self.kept.pop()
            return ["back"]
        return []

    def clip(self):
        return self.pick(self.path, self.polygon, self.large_rectangle, self.large_rectangle, self.whole_page)() + ["clips-by"]

    def nested_clips(self):
        """Clips in each other, each taking a little away, with things painted on the way in and on the way back."""
        painted = lambda: self.grey() + self.pick(self.whole_page, self.large_rectangle, self.polygon)() + ["fills"]
        words = []
        depth = self.random.randint(1, 5)
        for _ in range(depth):
            clip = self.pick(self.large_rectangle, self.large_rectangle, lambda: self.large_rectangle() + self.polygon())
            words += ["keeps"] + clip() + ["clips-by"] + (painted() if self.chance(0.5) else [])
        for _ in range(depth):
            words += painted() + ["back"]
        return words

    def in_keep_and_back(self, depth):
        """A program after which scale, corner and clips are as before."""
        before, kept = self.state.copy(), len(self.kept)
        words = ["keeps"] + self.program(depth, self.random.randint(1, 4))
        words += ["back"] * (1 + max(0, len(self.kept) - kept))
        self.state, self.kept = before, self.kept[:kept]
        return words

    def body(self, depth):
        """What a loop or a name runs. If it leaves another scale or corner, shapes that follow are elsewhere."""
        if self.chance(0.8):
            return self.in_keep_and_back(depth)
        before, kept = self.state.copy(), len(self.kept)
        words = self.program(depth, self.random.randint(1, 2))
        self.state, self.kept = before, self.kept[:kept]
        return words

    def in_loop(self, depth):
        n = self.pick(0, 1, 2, 3, 3, 5)
        return self.number(n) + ["{"] + self.body(depth) + ["}", self.pick("repeats", "repeats", "when")]

    def in_row(self, depth):
        """A body that is moved on by a shift each time."""
        body = self.body(depth)
        shift = [str(self.pick(0, 1, 2, 3)), str(self.pick(0, 1, 2)), "shifts"]
        return ["keeps"] + self.number(self.random.randint(2, 6)) + ["{"] + body + shift + ["}", "repeats", "back"]

    def by_name(self, depth):
        name = self.new_name()
        words = ["/" + name, "{"] + self.body(depth) + ["}", "defines"]
        words += [name] * self.random.randint(0, 3)
        if self.chance(0.2):
            words += ["/" + name] + self.number(7) + ["defines", name, "drops"]
        return words

    def counter(self):
        """A recursion that stops by its count, or by the frames."""
        name = self.new_name()
        body = ["copies", "0", "swaps", "is-less", "{", "1", "takes"] + self.pick([], ["shows"], ["0", "0", "moves"]) + [name, "}", "when"]
        return ["/" + name, "{"] + body + ["}", "defines"] + self.number(self.pick(0, 1, 2, 5, 5, 10, 20, 30, 31, 32)) + [name, "drops"]

    def statement(self, depth):
        if self.thin:
            return self.drawing()
        ways = [self.drawing] * 8 + [self.scale, self.shift, self.shift, self.keep, self.back, self.clip, self.nested_clips]
        if depth > 0:
            nested = [self.in_keep_and_back, self.in_loop, self.in_row, self.by_name]
            ways += [lambda: self.random.choice(nested)(depth - 1)] * 4
            if self.chance(0.2):
                ways.append(self.counter)
        return self.random.choice(ways)()

    def program(self, depth, length):
        return [word for _ in range(length) for word in self.statement(depth)]

    def drawings(self):
        words = [] if self.thin or self.chance(0.5) else self.scale()
        words += self.program(3, self.random.randint(1, 9))
        words += self.pick(self.polygon, self.rectangle, self.large_rectangle, self.path)() + ["fills"]
        return words + (["shows"] if self.chance(0.9) else [])

    # Faults.

    def operand(self):
        name = self.pick("/x", "/adds", "/" + self.letters(3))
        bodies = [["{", "}"], ["{", "1", "}"], ["{", "shows", "}"], ["{", "{", "}", "}"]]
        numbers = [0, 1, 2, 5, 15, 16, 17, 255, 256, 65535, 65536, 1048575, 1048576, RESULTS_END - 1]
        return self.pick([str(self.random.choice(numbers))], [str(self.random.choice(numbers))], self.random.choice(bodies), [name])

    def random_operation(self):
        """An operator with operands of any kind, perhaps too few: the order of its checks."""
        operands = [word for _ in range(self.random.randint(0, 3)) for word in self.operand()]
        return operands + [self.random.choice(THIN_OPERATORS if self.thin else OPERATORS)]

    def thin_fault(self):
        return self.pick(
            ["1", "moves"], ["{", "}", "moves"], ["{", "}", "1", "moves"], ["/x", "1", "lines"], ["greys"], ["/x", "greys"],
            ["256", "greys"], ["1048576", "0", "moves"], ["0", "1048576", "moves"], ["nowhere"], ["1", "2", "lines"],
            ["1048576", "2", "lines"], ["2147483647", "2147483647", "moves"], ["0", "0", "moves", "1048576", "1", "lines"],
            ["1"] * 257, ["{", "}"] * 257, self.points(1025))

    def fault(self):
        if self.thin or self.chance(0.3):
            return self.thin_fault()
        return self.pick(
            ["drops"], ["1", "swaps"], ["copies"], ["/x", "defines"], ["defines"], ["{", "}", "repeats"], ["5", "repeats"],
            ["5", "5", "when"], ["1", "/x", "defines"], ["1", "2", "defines"], ["/x", "1", "adds"], ["1", "{", "}", "takes"],
            ["1", "0", "divides"], ["0", "1", "takes"], ["65536", "32768", "multiplies"], ["2147483647", "1", "adds"],
            ["65536", "scales"], ["1048576", "0", "shifts"], ["back"] * 17, ["keeps"] * 17, ["/f", "{", "f", "}", "defines", "f"],
            ["/f", "{", "1", "{", "f", "}", "repeats", "}", "defines", "f"], ["/f", "/g", "defines", "f", "greys"],
            self.repeated(257, ["1"]), self.repeated(1025, ["clips-by"]), self.repeated(RESULTS_END - 1, ["copies", "drops", "1"]))

    def with_fault(self):
        return self.drawings() + self.pick(self.fault, self.random_operation)() + self.drawings()

    def operations(self):
        words = []
        for _ in range(self.random.randint(1, 4)):
            words += self.random_operation()
        return words + ["shows"]

    # Limits while a job runs.

    def repeated(self, times, words):
        if self.thin:
            return words * times
        return [str(times), "{"] + words + ["}", "repeats"]

    def points(self, count):
        """A path of so many points, of several subpaths or of one."""
        if self.chance(0.3):
            return self.repeated(count, self.random_point() + ["moves"])
        last = self.pick([], self.random_point() + ["lines"])
        if not last:
            return self.random_point() + ["moves"] + self.repeated(count - 1, self.random_point() + ["lines"])
        inner = self.repeated(count - 2, self.random_point() + ["lines"])
        return self.random_point() + ["moves"] + inner + last

    def stack_limit(self):
        push = self.pick(["1"], ["{", "}"], ["/x"])
        words = self.repeated(self.near(256), push)
        if self.thin:
            return words + self.pick(["greys"], ["2", "greys"], ["moves"], [])
        return words + self.pick(["copies"], ["drops", "copies"], ["swaps"], ["/x"], ["/x", "defines"], ["adds", "adds", "copies"], [])

    def point_limit(self):
        words = self.points(self.near(1024))
        return words + self.pick([], ["1048576", "0", "moves"], ["1", "1", "lines"], ["1048576", "0", "lines"]) + ["fills"]

    def place_limit(self):
        if self.thin:
            a, b = self.pick(1048575, 1048576, 5), self.pick(1048575, 1048576, 5)
            return ["0", "0", "moves", str(a), str(b), "lines", "5", "9", "lines", "fills"]
        scale = self.pick(1, 3, 16, 255, 4096, 65535)
        words = [str(scale), "scales"]
        corner = self.random.randint(0, COORDINATES_END // scale)
        if self.chance(0.6):
            words += [str(corner), str(corner // 2), "shifts"]
        else:
            corner = 0
        last = (COORDINATES_END - 1) // scale - corner
        a, b = max(0, self.pick(last, last, last + 1)), self.pick(0, 1, max(0, last))
        if self.chance(0.5):
            a, b = b, a
        return words + [str(a), str(b), self.pick("moves", "shifts"), "0", "0", "moves"]

    def scale_limit(self):
        scale = self.pick(1, 3, 7, 16, 1000, 65535)
        n = (65536 * 16 - 1) // scale
        return [str(scale), "scales", str(self.pick(n, n, n + 1, n - 1)), "scales", "1", "0", "moves", "0", "scales", "9", "9", "moves"]

    def grey_limit(self):
        return self.whole_page() + [str(self.near(255)), "greys", "fills"]

    def result_limit(self):
        last = RESULTS_END - 1
        a = self.random.randint(0, last)
        b = self.random.randint(1, 60000)
        return self.pick(
            [str(a), str(last - a + self.pick(0, 1)), "adds"],
            [str(a), str(a + self.pick(0, 1)), "takes"],
            [str(b), str(last // b + self.pick(0, 1)), "multiplies"],
            ["46340", "46340", "multiplies"], ["46341", "46341", "multiplies"],
            [str(a), str(self.pick(0, 1, 2, last)), "divides"],
            [str(a), str(a + self.pick(0, 1)), "is-less", "{", "shows", "}", "when"]) + ["shows"]

    def kept_limit(self):
        count = self.near(16)
        return ["keeps"] * count + ["back"] * (count + self.pick(-1, 0, 1)) + ["shows"]

    def clip_limit(self):
        """Clips of some points each up to the limit, or just beyond it, and a thing painted under them."""
        room = self.near(1024)
        words = []
        corners = self.whole_page()
        for _ in range(self.pick(0, 0, 1, 3)):
            words += corners + ["clips-by"]
            room -= 5
        if self.chance(0.2):
            words = ["keeps"] + words + corners + ["clips-by", "back", "keeps"] + words
        if self.chance(0.3):
            words += self.repeated(room, ["clips-by"])
        elif self.chance(0.5):
            words += self.repeated(room // 5, corners + ["clips-by"])
            if room % 5 > 0:
                words += self.ring([self.random_point() for _ in range(room % 5 - 1)]) + ["clips-by"]
        else:
            words += corners + self.points(room - 5) + ["clips-by"]
        return words + self.large_rectangle() + ["fills"]

    def frame_limit(self):
        """Bodies that call each other, as deep as there are frames or one more."""
        depth = self.near(63)
        name = self.new_name()
        words = ["/" + name, "{", "shows", "}", "defines"]
        for _ in range(depth - 1):
            outer = self.new_name()
            call = self.pick([name], [name], [name, "1", "drops"])
            words += ["/" + outer, "{"] + call + ["}", "defines"]
            name = outer
        last = self.pick([], ["0", "{", "}", "repeats"], ["0", "{", "}", "when"])
        if last:
            words[2:3] = ["shows"] + last
        return words + [name]

    def at_limit(self):
        ways = [self.stack_limit, self.point_limit, self.place_limit, self.grey_limit]
        if not self.thin:
            ways += [self.scale_limit, self.result_limit, self.kept_limit, self.clip_limit, self.frame_limit]
        before = self.drawings() if self.chance(0.3) else []
        return before + self.random.choice(ways)() + ["shows"]

    # Changes to the words of a job.

    def changed(self, words):
        words = list(words)
        for _ in range(self.pick(1, 1, 2, 5)):
            at = self.random.randrange(len(words) + 1)
            operators = THIN_OPERATORS if self.thin and self.chance(0.9) else OPERATORS
            other = self.pick(self.random.choice(operators), "{", "}", "x", "/x", str(self.pick(0, 1, 16, 300)))
            self.pick(
                lambda: words.insert(at, other),
                lambda: words[at:at + 1] and words.pop(at),
                lambda: words.__setitem__(slice(at, at + 1), [other]),
                lambda: words.__setitem__(slice(at, at + 2), reversed(words[at:at + 2])))()
        return words

    # Texts.

    def remark(self):
        inside = self.pick("", " a remark", "{", "} / \t \r 5a", "%%", "\u00e9\u2603 Capital")
        return "%" + inside + "\n"

    def separator(self):
        if self.chance(0.9):
            return " "
        return self.pick("\n", "  ", " \n\n ", " " + self.remark(), "\n" + self.remark() + self.remark())

    def joined(self, words):
        """The words as a text. Only beside braces may there be no space."""
        parts = []
        last = ""
        for word in words:
            beside_brace = word in ("{", "}") or last in ("{", "}", "")
            if not (beside_brace and self.chance(0.3)):
                parts.append(self.separator())
            parts.append(word)
            last = word
        parts.append(self.pick("", "", " ", "\n", " % the end"))
        return "".join(parts).encode()

    def with_bad_byte(self, text):
        """A byte put in, changed or taken away."""
        at = self.random.randrange(len(text) + 1)
        byte = self.pick(b"\r", b"\t", b"A", b"\x00", b"\xff", b"/", b"%", b"{", b"}", b"-", b"5", b"a", b" ", b"+", b".", b"\x7f",
                         bytes([self.random.randrange(256)]))
        return self.pick(text[:at] + byte + text[at:], text[:at] + byte + text[at + 1:], text[:at] + text[at + 1:], text[:at])

    def unreadable_piece(self):
        """Words that cannot be read, or that look so."""
        length = self.near(31)
        return self.pick(
            "-5", "5-", "5a", "a5", "x/y", "x%y", "/", "/ x", "//x", "/5", "/{", "/}", "/%", "}", "{", "{ {", "1\r", "\t",
            "Shows", "5.0", "+5", "/x%", "/x/", "{%}", "{/}", "1{/a}2", "x{y}z", "--", "-", "/-", "/adds",
            self.letters(length), "/" + self.letters(length), self.letters(length) + "5", "/" + self.letters(length) + "/")

    def beyond_limit_piece(self):
        """Words beyond a limit of a text, or just within it."""
        depth = self.near(32)
        return self.pick(
            "2147483647", "2147483648", "0" * 40 + "2147483648", "9" * self.random.randint(10, 50), "18446744073709551615",
            "18446744073709551616", "18446744073709551621", "{" * depth + "}" * depth, "{ " * depth + "5 " + "} " * depth,
            self.many_names(), self.many_names(), "{ 4 scales }", *[self.random.choice(OPERATORS) + self.pick("", "", "-")] * 4)

    def many_names(self):
        count = self.near(256)
        stroke = lambda: self.pick("", "/")
        names = " ".join(stroke() + self.new_name() for _ in range(count))
        return "{" + names + "}" + self.pick("", " nowhere", " /n-b", " " + stroke() + "zzzz")

    def refused(self):
        words = self.drawings()
        at = self.random.randrange(len(words) + 1)
        pieces = [self.pick(self.unreadable_piece, self.beyond_limit_piece)() for _ in range(self.pick(1, 1, 1, 2))]
        return self.joined(words[:at] + pieces + words[at:])

    def many_tokens(self):
        """As many tokens as a text may have, or one more; a brace may be the last."""
        count = self.near(65536)
        last = self.pick(["5"], ["shows"], ["}"], ["/x"], ["{", "}"])
        first = ["{"] if last == ["}"] else []
        middle = self.pick(["fills"], ["0", "greys"], ["{", "}"] * 100)
        words = first + (middle * (1 + count // len(middle)))[:count - len(first) - len(last)]
        if middle[0] == "{":
            words = [w if w != "{" or words[i + 1:i + 2] == ["}"] else "5" for i, w in enumerate(words)]
        return " ".join(words + last).encode()

    def long_text(self):
        """About as many bytes as a text may have."""
        length = (1 << 24) + self.pick(-1, 0)
        start = self.pick(b"shows ", b"shows } ", b"shows 2147483648 ", b"{ ")
        return start + b" " * (length - len(start))

    def small(self):
        return self.pick(b"", b" ", b"\n", b"%", b"shows", b"shows shows", b"fills shows", b"{}", b"x", b"/x", b"5",
                         b"0 0 moves shows 1 1 lines")

    def edge(self, index):
        """The job of this number at a limit, or nothing if there are fewer."""
        edges = [(text, 0) for text in THIN_EDGES + ([] if self.thin else EDGES)] + LONG_EDGES
        if index < len(edges):
            text, length = edges[index]
            return Job("edge", text.ljust(length).encode(), self.width, self.height, 100000)
        return None

    def job(self):
        """One random job, on a small page nearly always."""
        size = self.random.random()
        if size < 0.01:
            self.width, self.height = self.pick(8191, 8192), self.random.randint(1, 3)
        elif size < 0.015:
            self.width, self.height = self.random.randint(1, 3), self.pick(65534, 65535)
        job = self.random_job()
        if size > 0.98:
            change = self.pick({"width": 0}, {"width": 8193}, {"height": 0}, {"height": 65536}, {"steps": 10**9 + 1},
                               {"steps": 1 << 64})
            vars(job).update(change)
        return job

    def random_job(self):
        """A job of a random kind, on the page that was chosen."""
        lengths = self.random.random()
        if lengths < 0.001:
            return Job("long text", self.long_text(), self.width, self.height, 1000)
        if lengths < 0.012:
            return Job("many tokens", self.many_tokens(), self.width, self.height, 100000)
        kind, text = self.pick(
            *[("drawings", lambda: self.joined(self.drawings()))] * 7,
            *[("fault", lambda: self.joined(self.with_fault()))] * 3,
            *[("operations", lambda: self.joined(self.operations()))] * 2,
            *[("limit", lambda: self.joined(self.at_limit()))] * 3,
            *[("changed", lambda: self.joined(self.changed(self.pick(self.drawings, self.with_fault, self.at_limit)())))] * 3,
            *[("bad byte", lambda: self.with_bad_byte(self.joined(self.drawings())))] * 2,
            *[("refused", self.refused)] * 3,
            ("small", self.small))
        return Job(kind, text(), self.width, self.height, 20000)
