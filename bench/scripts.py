"""The scripts of the measurements. A script is a list of lines (README.md has the language)."""

SITES = 8
DAYS = 62


class Random:
    """A small generator, so that every run makes the same calls."""

    def __init__(self, seed):
        self.state = seed

    def below(self, n):
        self.state = (self.state * 6364136223846793005 + 1442695040888963407) % 2**64
        return (self.state >> 33) % n

    def shuffle(self, items):
        for i in range(len(items) - 1, 0, -1):
            j = self.below(i + 1)
            items[i], items[j] = items[j], items[i]

    def choose(self, weights):
        at = self.below(sum(weights))
        for i, weight in enumerate(weights):
            if at < weight:
                return i
            at -= weight


# the three ways to call; the first is what a script begins with
WAYS = {"by value": "V", "in place": "I", "held to be sound": "H"}


def line(letter, *numbers):
    return " ".join([letter, *map(str, numbers)])


def made(lines):
    """These calls, made once."""
    return ["L", *lines, f"R {len(lines)}"]


def rounds(turns, letter="R", parts=5):
    """Some turns of the list to warm up, and then `parts` times so many turns between two times."""
    return [f"{letter} {max(1, turns // 10)}", *["T", f"{letter} {turns}", "T"] * parts]


def timed(setup, calls, turns, letter="R"):
    return [*setup, "L", *calls, *rounds(turns, letter)]


# ---- the gauge: what (b) and (c) run

GAUGE = [
    "A TABLE sites (site, river, datum) ROWS 8",
    "A TABLE points (site, level, flow) ROWS 64",
    "A TABLE stages (site, day, level) ROWS 512",
    "A SELECT river, datum FROM sites WHERE site = ?",
    "A SELECT level, flow FROM points WHERE site = ?",
    "A SELECT day, level FROM stages WHERE site = ?",
    "A SELECT day, level FROM stages WHERE site = ? AND day >= ?",
    "A SELECT level FROM stages WHERE site = ? AND day = ?",
    "A SELECT site, day FROM stages WHERE level > ?",
    "A INSERT INTO sites VALUES (?, ?, ?)",
    "A INSERT INTO points VALUES (?, ?, ?)",
    "A INSERT INTO stages VALUES (?, ?, ?)",
    "A DELETE FROM stages WHERE site = ? AND day = ?",
    "A UPDATE stages SET level = ? WHERE site = ? AND day = ?",
    "A UPDATE points SET flow = ? WHERE site = ? AND level = ?",
    "A UPDATE sites SET datum = ? WHERE site = ?",
]


def gauge_rows(random):
    """8 sites, 8 points of each rating curve, 62 days of each site: 8, 64 and 496 rows."""
    rows = [line("U", 0, site, site % 3, 1000 + site) for site in range(1, SITES + 1)]
    for site in range(1, SITES + 1):
        rows += [line("U", 1, site, 50 * i, 7 * i * i) for i in range(8)]
    for day in range(1, DAYS + 1):
        rows += [line("U", 2, site, day, random.below(400)) for site in range(1, SITES + 1)]
    return rows


def gauge_keys():
    """40 keys: of each site its river and datum, its points, its days, its days from a day on; six single days; two alarm levels."""
    keys = [line("Q", q, site) for q in range(3) for site in range(1, SITES + 1)]
    keys += [line("Q", 3, site, DAYS - 6) for site in range(1, SITES + 1)]
    keys += [line("Q", 4, site, 30 + site) for site in range(1, 7)]
    return keys + [line("Q", 5, 380), line("Q", 5, 395)]


def gauge_change(random, oldest):
    """Three in ten: the oldest day of a site goes and a new reading comes. Five: a level is corrected. One each: a point, a datum."""
    site = 1 + random.below(SITES)
    kind = random.choose([3, 5, 1, 1])
    if kind == 0:
        day = oldest[site]
        oldest[site] = day % DAYS + 1
        return [line("U", 3, site, day), line("U", 2, site, day, random.below(400))]
    if kind == 1:
        return [line("U", 4, random.below(400), site, 1 + random.below(DAYS))]
    if kind == 2:
        return [line("U", 5, random.below(500), site, 50 * random.below(8))]
    return [line("U", 6, 1000 + random.below(50), site)]


def gauge_calls(random, count):
    """Nine calls in ten ask, key k of the 40 with weight 1 / k. Which keys are asked most changes every 2,000 calls. The list can be run round and round."""
    keys = gauge_keys()
    weights = [100000 // (k + 1) for k in range(len(keys))]
    oldest = {site: 1 for site in range(1, SITES + 1)}
    calls, changes = [], 0
    while len(calls) < count:
        if len(calls) % 2000 == 0:
            random.shuffle(keys)
        if changes * 10 < len(calls) and random.below(2) == 0:
            change = gauge_change(random, oldest)
            changes += len(change)
            calls += change
        else:
            calls.append(keys[random.choose(weights)])
    return calls


def gauge(slots, turns, count=10000, parts=5, seed=1):
    random = Random(seed)
    setup = made([f"O {slots}", *GAUGE]) + made(gauge_rows(random))
    calls = gauge_calls(random, count)
    return [*setup, "L", *calls, f"C {len(calls)}", *rounds(turns, parts=parts)]


def gauge_changes(count=10000):
    """The workload's setup with no slot, and its updates alone."""
    random = Random(1)
    setup = made(["O 0", *GAUGE]) + made(gauge_rows(random))
    return setup, [call for call in gauge_calls(random, count) if call.startswith("U")]


# ---- one table, for (a), (c) and (f)

def one_table(rows, slots):
    """A table of so many rows, all there, with a question for one row and one for every eighth."""
    adds = [
        f"O {slots}",
        f"A TABLE stages (site, day, level) ROWS {rows}",
        "A SELECT level FROM stages WHERE site = ? AND day = ?",
        "A SELECT day, level FROM stages WHERE site = ?",
        "A INSERT INTO stages VALUES (?, ?, ?)",
        "A UPDATE stages SET level = ? WHERE site = ? AND day = ?",
        "A DELETE FROM stages WHERE site = ? AND day = ?",
    ]
    return made(adds) + made([line("U", 0, i % 8 + 1, i // 8 + 1, 7 * i % 400) for i in range(rows)])


ONE_ROW = line("Q", 0, 3, 1)
EIGHTH = line("Q", 1, 3)


# ---- two tables, for (f) and (g)

def two_tables(rows):
    """Two tables of so many rows each: readings, and the points of rating curves. A question pairs them by site and level, of one site or of all; no slot."""
    adds = [
        "O 0",
        f"A TABLE stages (site, day, level) ROWS {rows}",
        f"A TABLE points (site, level, flow) ROWS {rows}",
        "A SELECT stages.day, points.flow FROM stages, points WHERE stages.site = ? AND points.site = stages.site AND points.level = stages.level",
        "A SELECT stages.day, points.flow FROM stages, points WHERE stages.day >= ? AND points.site = stages.site AND points.level = stages.level",
        "A INSERT INTO stages VALUES (?, ?, ?)",
        "A INSERT INTO points VALUES (?, ?, ?)",
    ]
    readings = [line("U", 0, i % 8 + 1, i // 8 + 1, 10 * (i // 8)) for i in range(rows)]
    return made(adds) + made(readings) + made([line("U", 1, i % 8 + 1, 10 * (i // 8), 7 * i) for i in range(rows)])


PAIRED_SITE = line("Q", 0, 3)
PAIRED_ALL = line("Q", 1, 1)


# ---- a table that runs round beside one that does not, for (f) and (h)

def ring(word="RING", more=0, slots=0):
    """A table of 96 rows, all there; of a ring so many rows more, which push out as many. Two questions and an INSERT; no answer kept."""
    adds = [
        f"O {slots}",
        f"A TABLE recent (site, minute, level) {word} 96",
        "A SELECT level FROM recent WHERE site = ? AND minute = ?",
        "A SELECT minute, level FROM recent WHERE site = ?",
        "A INSERT INTO recent VALUES (?, ?, ?)",
    ]
    return made(adds) + made([line("U", 0, i % 8 + 1, i // 8 + 1, 7 * i % 400) for i in range(96 + more)])


WRAPPED = 40  # rows that were pushed out where a ring's oldest row lies in the middle of its area
RING_ROW = line("Q", 0, 3, 7)
RING_EIGHTH = line("Q", 1, 3)
RING_INSERT = line("U", 0, 3, 99, 250)


# ---- rows with nulls beside rows without, for (f)

NULL = -2147483648


def iced(every=0):
    """A table of 512 rows, with no null, or with one for every so many levels. Three questions; no slot."""
    adds = [
        "O 0",
        "A TABLE stages (site, day, level) ROWS 512",
        "A SELECT day FROM stages WHERE level < ?",
        "A SELECT day FROM stages WHERE NOT level < ?",
        "A SELECT day FROM stages WHERE level IS NULL",
        "A INSERT INTO stages VALUES (?, ?, ?)",
    ]
    levels = [NULL if every and i % every == 0 else 7 * i % 400 for i in range(512)]
    return made(adds) + made([line("U", 0, i % 8 + 1, i // 8 + 1, level) for i, level in enumerate(levels)])


LOW_WATER = line("Q", 0, 50)
NOT_LOW = line("Q", 1, 350)
ICED = line("Q", 2)


# ---- conditions of no, one, four and eight comparisons, for (f)

CONDITIONS = {
    0: ("", []),
    1: (" WHERE a = ?", [3]),
    4: (" WHERE a = ? AND b >= ? AND c <> ? AND d < ?", [3, 100, 5, 9]),
    8: (" WHERE a = ? OR b = ? AND c > ? OR d <= 3 AND a < b OR c = 7 AND d = ? OR b = 511", [3, 100, 5, 4]),
}


def conditions():
    """A table of four columns and 512 rows, and of each condition a question, an UPDATE and a DELETE."""
    adds = ["O 0", "A TABLE t (a, b, c, d) ROWS 512", "A INSERT INTO t VALUES (?, ?, ?, ?)"]
    for where, _ in CONDITIONS.values():
        adds += [f"A SELECT a, b FROM t{where}", f"A UPDATE t SET d = ?{where}", f"A DELETE FROM t{where}"]
    return made(adds) + made([line("U", 0, i % 8, i, i * 7 % 13, i * 5 % 11) for i in range(512)])


def condition_calls():
    """A name and a call of each."""
    calls = {}
    for i, (count, (_, values)) in enumerate(CONDITIONS.items()):
        calls[f"ask, new, 512 rows, {count} comparisons"] = line("Q", i, *values)
        calls[f"UPDATE, 512 rows, {count} comparisons"] = line("U", 2 * i + 1, 5, *values)
        calls[f"DELETE, 512 rows, {count} comparisons"] = line("U", 2 * i + 2, *values)
    return calls


# ---- kept answers, for (d) and (f)

def held(count):
    """Two tables of 8 rows, and so many kept answers, each of one row or none."""
    adds = [
        "O 64",
        "A TABLE stages (site, day, level) ROWS 8",
        "A TABLE other (site, day, level) ROWS 8",
        "A SELECT level FROM stages WHERE site = ?",
        "A INSERT INTO stages VALUES (?, ?, ?)",
        "A INSERT INTO other VALUES (?, ?, ?)",
        "A UPDATE stages SET level = ? WHERE site = ?",
        "A UPDATE stages SET level = ? WHERE day = ?",
        "A UPDATE other SET level = ? WHERE site = ?",
    ]
    rows = [line("U", u, i, i, i) for u in (0, 1) for i in range(1, 9)]
    return made(adds) + made(rows) + (made([line("Q", 0, 1 + i) for i in range(count)]) if count else [])


UPDATES = {
    "another table": line("U", 4, 5, 100),
    "drops none": line("U", 2, 5, 100),
    "drops all": line("U", 3, 5, 100),
}


# ---- matched answers that an update cannot affect (A.7), for (d) and (f)

def spared(count):
    """Of site 1 so many kept answers, each of the days above another level from 100 on: two comparisons each."""
    adds = [
        "O 64",
        "A TABLE stages (site, day, level) ROWS 8",
        "A SELECT day FROM stages WHERE site = ? AND level > ?",
        "A INSERT INTO stages VALUES (?, ?, ?)",
        "A UPDATE stages SET level = ? WHERE site = ? AND level < ?",
    ]
    rows = [line("U", 0, i, i, 90 + i) for i in range(1, 9)]
    return made(adds) + made(rows) + (made([line("Q", 0, 1, 100 + i) for i in range(count)]) if count else [])


CORRECTIONS = {
    "of another site, matches none": line("U", 1, 60, 2, 50),
    "matches all and reaches none": line("U", 1, 60, 1, 50),
    "matches all and reaches all": line("U", 1, 200, 1, 50),
}


def hardest(count):
    """A question of 16 clauses beside an UPDATE of 18, which sets seven columns that are selected: too many clauses for patterns (rule 5). All comparisons are of the last column, so that
    each conjunction tries every number beside it, and none is possible. Of the pairs that were tried the one with the most instructions."""
    adds = [
        "O 64",
        "A TABLE t (a, b, c, d, e, f, g, h) ROWS 8",
        "A SELECT a, b, c, d, e, f, g FROM t WHERE (h <> 6 OR h <> 5) AND (h <> 7 OR h <> 4) AND (h <> 8 OR h <> 3) AND (h > 15 OR h > 16)",
        "A UPDATE t SET a = 1, b = 2, c = 3, d = 4, e = 5, f = 6, g = 7 WHERE (h > 1 OR h > 2 OR h > 3) AND (h <> 0 OR h <> 4 OR h <> 5) AND (h < 8 OR h < 9)",
    ]
    return made(adds) + (made([line("Q", 0)]) if count else [])


HARDEST = line("U", 0)


# ---- an update proposed, then committed or withdrawn (A.8), for (f)

def proposed(call):
    """The proposal of an update."""
    return "P" + call[1:]


COMMIT, WITHDRAW = "M", "B"


# ---- the fullest state: 8 tables, 16 queries, 16 updates, 64 kept answers of keys with 8 values

def fullest(keys=64, rows=512):
    columns = "abcdefgh"
    all_columns = ", ".join(columns)
    where = " AND ".join(f"{c} = ?" for c in columns)
    adds = ["O 64", f"A TABLE t ({all_columns}) ROWS 512"]
    for i in range(7):
        names = ", ".join(f"column_{c}{i}abc" for c in columns)
        adds.append(f"A TABLE readings_{i}ab ({names}) ROWS 400")
    adds += [f"A SELECT {all_columns} FROM t WHERE {where}"] * 16
    adds += ["A INSERT INTO t VALUES (?, ?, ?, ?, ?, ?, ?, ?)"]
    adds += [f"A UPDATE t SET a = 1, b = 2, c = 3, d = 4, e = 5, f = 6, g = 7, h = 8 WHERE {where}"] * 15
    filling = [line("U", 0, *[i % (c + 2) for c in range(8)]) for i in range(rows)]
    asks = [line("Q", i % 16, i // 16, *[9] * 7) for i in range(keys)]
    return made(adds) + made(filling) + (made(asks) if keys else [])


FULL_FIRST = line("Q", 15, 3, *[9] * 7)  # the answer asked last
FULL_LAST = line("Q", 0, 0, *[9] * 7)  # the answer asked first
FULL_NEW = line("Q", 0, 77, *[9] * 7)
FULL_UPDATE = line("U", 1, 77, *[9] * 7)  # drops none
DEEPEST = "A DELETE FROM t WHERE " + "(" * 236  # 256 bytes, no sentence, read to its end


# ---- as many statements and kept answers, but plain ones: two comparisons, keys of one value

def plain(keys=64):
    adds = ["O 64", "A TABLE stages (site, day, level) ROWS 512", "A TABLE points (site, level, flow) ROWS 64"]
    adds += ["A SELECT day, level FROM stages WHERE site = ? AND day > 5"] * 16
    adds += ["A INSERT INTO stages VALUES (?, ?, ?)"]
    adds += ["A UPDATE stages SET level = ? WHERE site = ? AND day = ?"] * 15
    return made(adds) + (made([line("Q", i % 16, i // 16) for i in range(keys)]) if keys else [])


# ---- patterns at rule 5's limit: 4 clauses of the update beside 16 of the query, 64 kept answers

def clauses():
    adds = [
        "O 64",
        "A TABLE t (a, b, c, d, e, f, g, h) ROWS 8",
        "A SELECT a FROM t WHERE (a = ? OR a = ?) AND (b = ? OR b = ?) AND (c = ? OR c = ?) AND (d = ? OR d = ?)",
        "A DELETE FROM t WHERE (a = ? OR a = ?) AND (b = ? OR b = ?)",
    ]
    return made(adds) + made([line("Q", 0, *[i] * 8) for i in range(64)])


CLAUSES_UPDATE = line("U", 0, 70, 71, 72, 73)  # drops none


# ---- adding, for (e) and (f)

ADDS = {
    "TABLE, 3 columns": "A TABLE flows (site, day, flow) ROWS 64",
    "SELECT, 2 comparisons": "A SELECT day, level FROM stages WHERE site = ? AND day >= ?",
    "SELECT, 8 comparisons": "A SELECT level FROM stages WHERE (site = 1 OR site = 2 OR site = 3) AND NOT (day < ? OR day > ?) "
    "AND (level >= ? OR level = 0 OR level < ?)",
    "INSERT": "A INSERT INTO stages VALUES (?, ?, ?)",
    "UPDATE, 2 comparisons": "A UPDATE stages SET level = ? WHERE site = ? AND day = ?",
    "DELETE, 1 comparison": "A DELETE FROM stages WHERE day < ?",
    "no sentence": "A SELECT level FROM",
}


def gate():
    """Small pieces of every measurement, for the program's stored run: counters, no times."""
    out = ["# Small pieces of every measurement of bench/run; made by `bench/run --gate`."]

    def piece(name, setup, *runs):
        out.append("# " + name)
        out.extend(setup)
        for run in runs:
            out.extend(run)

    for rows in (8, 64, 512):
        piece(f"{rows} rows, new and cached", one_table(rows, 64), ["L", ONE_ROW, EIGHTH, "K 4", "C 4", "K 4"])
    for slots in (64, 0):
        piece(f"the gauge's calls, {slots} slots", gauge(slots, 10, count=400, parts=0))
    for count in (0, 40, 64):
        piece(f"updates beside {count} kept answers", held(count), *[["L", call, "K 2"] for call in UPDATES.values()])
    piece("a ring, wrapped", ring(more=WRAPPED), ["L", RING_ROW, RING_EIGHTH, "C 4"], ["L", RING_INSERT, RING_EIGHTH, "C 200"])
    piece("a ring beside kept answers", ring(more=WRAPPED, slots=8), ["L", RING_EIGHTH, RING_INSERT, RING_ROW, "C 120"])
    piece("rows with nulls", iced(8), ["L", LOW_WATER, NOT_LOW, ICED, "C 4"])
    piece("matched answers that are not reached", spared(40), *[["L", call, "K 2"] for call in CORRECTIONS.values()])
    looked = [[proposed(call), WITHDRAW, proposed(call), COMMIT] for call in (line("U", 2, 7, 3), *UPDATES.values())]
    none = ["L", proposed(line("U", 1, 9, 9, 9)), COMMIT, WITHDRAW, "C 3"]
    piece("updates proposed, withdrawn and committed; then into a full table, and no note", held(40), *[["L", *calls, "C 4"] for calls in looked], none)
    piece("a row proposed for a ring, wrapped", ring(more=WRAPPED), ["L", proposed(RING_INSERT), RING_EIGHTH, COMMIT, RING_EIGHTH, "C 200"])
    piece("the most conjunctions", hardest(1), ["L", HARDEST, "K 2"])
    piece("clauses at rule 5's limit", clauses(), ["L", CLAUSES_UPDATE, "K 2"])
    piece("adding", one_table(8, 64), *[["L", text, "K 1"] for text in ADDS.values()])
    piece("the fullest state", fullest(rows=64), *[["L", call, "K 2"] for call in (FULL_FIRST, FULL_LAST, FULL_NEW, FULL_UPDATE, "S", "N", "F", "W 0", DEEPEST)])
    piece("plain statements and keys", plain(), ["L", "S", "K 2"])
    for name, way in list(WAYS.items())[1:]:
        piece(f"called {name}: the gauge's calls", [way, *gauge(64, 10, count=400, parts=0)])
        piece(f"called {name}: updates proposed, withdrawn and committed; then into a full table, and no note", held(40), *[["L", *calls, "C 4"] for calls in looked], none)
        piece(f"called {name}: answers kept and dropped, a flush, a row and the test", held(40), *[["L", call, "K 2"] for call in (*UPDATES.values(), "F", "W 0", "S", "N")])
    return out
