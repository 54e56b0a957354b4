#!/usr/bin/env python3
"""Where PostgreSQL with PostGIS or SpatiaLite is installed, times the same tickets there.

  others.py [SIZE ...]    microseconds a ticket, by kind, on the grid sheets of bench.rs with about SIZE edges
                          (default 100 500); --csv FILE adds the times to the file
  others.py --links       every link after a split (kinds 7 and 8) on small sheets, held against the link law of
                          document 01, and what the engine's own check says of the smallest fault
  others.py --sluices     each of these splits healed at once (kinds 9 and 10): whether the edge rows are as before
  others.py --redrawings  edges redrawn past wells and islands or turned over (kind 6): what the engine answers, and
                          what its own check says where it carries one out that Solgwid turns down
  others.py --surveys     lines with points along straight runs, a point twice, a line that doubles back: what the
                          engine answers, and how many points it stores

PostGIS runs in a server of its own: started in a temporary folder as an unprivileged user, reached through a socket
there, stopped and removed at the end. SpatiaLite runs inside this process on a database in memory. What is not
installed is named and left out; on Debian the packages are postgresql-15-postgis-3 and libsqlite3-mod-spatialite.
Needs Python 3.10 and its standard library; no network.

A time is that of one call as the server itself sees it (SQL text parsed, routine run), the least of some calls at each
place, then the median over the places. Each call is undone; neither that nor a commit, with the checks that PostGIS
puts off until then, is counted.
"""

import argparse
import contextlib
import csv
import ctypes
import ctypes.util
import functools
import glob
import itertools
import math
import os
import pwd
import re
import shutil
import signal
import statistics
import subprocess
import sys
import tempfile
import time
from pathlib import Path

ROOT = Path(__file__).resolve().parent.parent
sys.path.append(str(ROOT / 'tests'))
from repository import LEVEL     # noqa: E402

REFERENCE = ROOT / 'tests' / 'reference'
SIDE = 100
PLACES = 21
ROUNDS = 5          # calls at each place: on a busy machine a call of milliseconds is often interrupted
KINDS = ('AddIsoNode', 'MoveIsoNode', 'RemoveIsoNode', 'AddIsoEdge', 'RemoveIsoEdge', 'ChangeEdgeGeom', 'NewEdgesSplit',
         'ModEdgeSplit', 'NewEdgeHeal', 'ModEdgeHeal', 'AddEdgeNewFaces', 'AddEdgeModFace', 'RemEdgeNewFace',
         'RemEdgeModFace')
COLUMNS = ('engine', 'setting', 'kind', 'edges', 'carried out', 'turned down')


class Missing(Exception):
    """Something needed is not installed."""


# --- the sheet of bench.rs, as tickets -------------------------------------------------------------------------------

class Sheet:
    """Tickets, each with the number that it must return; numbers are given in order, so they are known beforehand."""

    def __init__(self):
        self.tickets, self.answers = [], []
        self.nodes = self.edges = 0
        self.faces = 1

    def add(self, *ticket):
        kind = ticket[0]
        self.nodes += kind in (1, 8)
        self.edges += kind in (4, 8, 12)
        number = self.nodes if kind in (1, 8) else self.edges
        self.tickets.append(ticket)
        self.answers.append(number)
        return number


def side_of(target):
    """Plots along a side: what bench.rs takes for 100, 500, 1000 and 2000 edges."""
    return max(k for k in range(2, target) if k == 2 or 2 * k * (k + 1) <= 0.93 * target)


def draw_grid(s, k):
    """Nodes and edges of k by k plots. Answers the plots."""
    node = {(x, y): s.add(1, -1, x * SIDE, y * SIDE) for y in range(k + 1) for x in range(k + 1)}
    bottom = {}
    for y in range(k + 1):
        for x in range(k + 1):
            a, b = x * SIDE, y * SIDE
            if x < k:
                bottom[x, y] = s.add(12, node[x, y], node[x + 1, y], a, b, a + SIDE, b)
            if y < k:
                s.add(12, node[x, y], node[x, y + 1], a, b, a, b + SIDE)
    s.faces += k * k
    return [dict(at=(x * SIDE, y * SIDE), first=node[x, y], last=node[x + 1, y + 1], bottom=bottom[x, y],
                 wells=None, island=None, boundary=None, sluice=None) for y in range(k) for x in range(k)]


def furnish(s, plots):
    """Islands, pairs of wells and sluices, spread over the plots."""
    each = max(min(1000 - s.nodes, s.nodes // 5) // 8, 3)
    step = max(len(plots) // (3 * each + 1), 1)
    for j in range(each):
        island, wells, sluice = (plots[(3 * j + m) * step % len(plots)] for m in range(3))
        x, y = island['at']
        a, b = s.add(1, -1, x + 60, y + 30), s.add(1, -1, x + 80, y + 30)
        island['island'] = s.add(4, a, b, x + 60, y + 30, x + 80, y + 30)
        x, y = wells['at']
        wells['wells'] = s.add(1, -1, x + 60, y + 30), s.add(1, -1, x + 80, y + 30)
        x, y = sluice['at']
        s.add(8, sluice['bottom'], x + 50, y)
        sluice['sluice'] = sluice['bottom'], s.edges


def grid(target):
    """The sheet with about so many edges, and its plots."""
    s = Sheet()
    plots = draw_grid(s, side_of(target))
    furnish(s, plots)
    for i in range(len(plots)):
        p = plots[i * 11 % len(plots)]
        if s.edges >= target or s.faces >= 990:
            break
        if p['boundary'] is None:
            x, y = p['at']
            p['boundary'] = s.add(12, p['first'], p['last'], x, y, x + SIDE, y + SIDE)
            s.faces += 1
    return s, plots


def at_place(kind, p):
    """A ticket of the kind at the plot that is carried out, and one that is turned down; None where it has no place."""
    (x, y), first, last, bottom = p['at'], p['first'], p['last'], p['bottom']
    wells, island, boundary, sluice = p['wells'], p['island'], p['boundary'], p['sluice']
    if kind == 1:
        return (1, -1, x + 70, y + 20), (1, -1, x + 100, y + 70)
    if kind == 2 and wells:
        return (2, wells[0], x + 71, y + 21), (2, wells[0], x + 100, y + 70)
    if kind == 3 and wells:
        return (3, wells[0]), (3, first)
    if kind == 4 and wells:
        a, b = x + 60, y + 30
        return (4, *wells, a, b, a + 20, b), (4, *wells, a, b, a + 10, y - 10, a + 20, b)
    if kind == 5 and island:
        return (5, island), (5, bottom)
    if kind == 6 and not sluice and not boundary:
        return (6, bottom, x, y, x + 50, y + 10, x + 100, y), (6, bottom, x, y, x + 50, y + 150, x + 100, y)
    if kind in (7, 8) and not sluice:
        return (kind, bottom, x + 50, y), (kind, bottom, x + 50, y + 1)
    if kind in (9, 10) and sluice:
        return (kind, *sluice), (kind, sluice[0], sluice[0] + 1)
    if kind in (11, 12) and not (boundary or island or wells):
        start, end = (kind, first, last, x, y), (x + SIDE, y + SIDE)
        return (*start, *end), (*start, x + 30, y + 150, *end)
    if kind in (13, 14):
        return (kind, boundary or bottom), (kind, 999_999)
    return None


# --- tickets as SQL --------------------------------------------------------------------------------------------------

def call(engine, ticket):
    """The ticket as one SELECT of the engine."""
    kind, rest = ticket[0], ticket[1:]
    plain = {1: 1, 2: 1, 4: 2, 6: 1, 7: 1, 8: 1, 11: 2, 12: 2}.get(kind, len(rest))
    numbers, points = rest[:plain], list(zip(rest[plain::2], rest[plain + 1::2]))
    words = ['NULL' if n == -1 else str(n) for n in numbers]
    if len(points) == 1:
        words.append(engine.POINT.format(*points[0]))
    elif points:
        words.append(engine.CURVE.format(', '.join(f'{x} {y}' for x, y in points)))
    name = engine.NAMES.get(kind, KINDS[kind - 1])
    return f"SELECT {engine.PREFIX}{name}('sheet', {', '.join(words)})"


def edge_row(columns):
    """(number, start, end, next left, next right) and the curve of an edge row as text."""
    numbers = re.findall(r'-?\d+(?:\.\d+)?', columns[5])
    values = [int(float(n)) for n in numbers]
    return tuple(int(c) for c in columns[:5]), tuple(zip(values[::2], values[1::2]))


# --- PostGIS ---------------------------------------------------------------------------------------------------------

FUNCTIONS = """
CREATE FUNCTION answer(call text) RETURNS text LANGUAGE plpgsql AS $body$
DECLARE value text;
BEGIN
  EXECUTE call INTO value;
  SET CONSTRAINTS ALL IMMEDIATE;  -- what a commit would refuse is refused here
  RETURN 'done ' || coalesce(value, '');
EXCEPTION WHEN OTHERS THEN RETURN 'refused ' || translate(SQLERRM, E'|\\n', '  ');
END $body$;

CREATE FUNCTION timed(call text, OUT micros float8, OUT answer text) LANGUAGE plpgsql AS $body$
DECLARE start timestamptz;
BEGIN
  start := clock_timestamp();
  EXECUTE call INTO answer;
  micros := extract(epoch FROM clock_timestamp() - start) * 1e6;
  answer := 'done ' || coalesce(answer, '');
  RAISE EXCEPTION 'undo' USING ERRCODE = 'UNDO0';  -- leaves the block, so that the call is undone; the variables stay
EXCEPTION
  WHEN SQLSTATE 'UNDO0' THEN NULL;
  WHEN OTHERS THEN
    micros := extract(epoch FROM clock_timestamp() - start) * 1e6;
    answer := 'refused ' || translate(SQLERRM, E'|\\n', '  ');
END $body$;
"""


SERVER_FOLDERS = ('/usr/lib/postgresql/*/bin', '/usr/pgsql-*/bin', '/usr/local/pgsql*/bin',
                  '/opt/homebrew/opt/postgresql*/bin')


def server_folders():
    """Folders that hold initdb, postgres and psql, the newest version first."""
    found = [os.path.dirname(os.path.realpath(p)) for p in map(shutil.which, ('postgres', 'initdb')) if p]
    for pattern in SERVER_FOLDERS:
        found += glob.glob(pattern)
    tools = ('initdb', 'postgres', 'psql')
    whole = {f for f in found if all(os.access(os.path.join(f, name), os.X_OK) for name in tools)}
    return sorted(whole, key=lambda f: [int(n) for n in re.findall(r'\d+', f)], reverse=True)


def has_topology(folder):
    """Whether PostGIS's topology is installed for the server in the folder."""
    with contextlib.suppress(OSError):
        words = [os.path.join(folder, 'pg_config'), '--sharedir']
        share = subprocess.run(words, capture_output=True, text=True).stdout.strip()
        return os.path.exists(os.path.join(share, 'extension', 'postgis_topology.control'))
    return False


def unprivileged():
    """Whom to run the server as: PostgreSQL will not run as root."""
    if os.geteuid() != 0:
        return {}
    for name in ('postgres', 'nobody'):
        with contextlib.suppress(KeyError):
            entry = pwd.getpwnam(name)
            return dict(user=entry.pw_uid, group=entry.pw_gid, extra_groups=[])
    raise Missing('run as root, and there is no user postgres or nobody to run a server as')


class PostGis:
    NAME, SETTING, CHECK = 'PostGIS', 'in its server', 'ValidateTopology'
    PREFIX, POINT, CURVE, NAMES = 'topology.ST_', 'ST_MakePoint({}, {})', "'LINESTRING({})'::geometry", {}

    def __init__(self):
        folders = server_folders()
        if not folders:
            raise Missing('no PostgreSQL server found (initdb, postgres and psql in one folder)')
        self.bin = next(filter(has_topology, folders), folders[0])
        self.server, self.folder = None, tempfile.mkdtemp(prefix='others-')
        # the caller's PG* would lead to the caller's own server
        self.environment = {k: v for k, v in os.environ.items() if not k.startswith('PG')} | {'LC_ALL': 'C'}
        try:
            self.start()
            self.extend()
        except BaseException:
            self.close()
            raise

    def tool(self, name):
        return os.path.join(self.bin, name)

    def start(self):
        who = unprivileged()
        if who:
            os.chown(self.folder, who['user'], who['group'])
        data = os.path.join(self.folder, 'data')
        common = dict(cwd=self.folder, env=self.environment, stdin=subprocess.DEVNULL, **who)
        words = [self.tool('initdb'), '-D', data, '-U', 'others', '-A', 'trust', '-E', 'UTF8', '--no-sync']
        made = subprocess.run(words, capture_output=True, text=True, **common)
        if made.returncode:
            raise Missing(f'initdb failed: {made.stderr.strip()}')
        # no commit is timed, and the tables are vacuumed below, so neither -F nor autovacuum=off changes a time
        words = [self.tool('postgres'), '-D', data, '-k', self.folder, '-F']
        words += ['-c', 'listen_addresses=', '-c', 'autovacuum=off']
        with open(os.path.join(self.folder, 'log'), 'w') as log:
            self.server = subprocess.Popen(words, stdout=log, stderr=log, **common)
        for _ in range(150):
            if self.psql('SELECT 1').returncode == 0:
                return
            if self.server.poll() is not None:
                break
            time.sleep(0.2)
        raise Missing('the PostgreSQL server did not start: ' + Path(self.folder, 'log').read_text().strip())

    def extend(self):
        made = self.psql('CREATE EXTENSION postgis; CREATE EXTENSION postgis_topology;' + FUNCTIONS)
        if made.returncode:
            raise Missing(f'no extensions postgis and postgis_topology in {self.bin}: {made.stderr.strip()}')
        versions = "postgis_lib_version(), current_setting('server_version'), postgis_geos_version()"
        self.version = 'PostGIS {}, PostgreSQL {}, GEOS {}'.format(*self.rows(f'SELECT {versions}')[0])

    def psql(self, sql):
        words = [self.tool('psql'), '-XqAt', '-v', 'ON_ERROR_STOP=1', '-f', '-']
        words += ['-h', self.folder, '-U', 'others', '-d', 'postgres']
        text = 'SET client_min_messages = error;\n' + sql
        return subprocess.run(words, input=text, capture_output=True, text=True, env=self.environment)

    def lines(self, sql):
        made = self.psql(sql)
        if made.returncode:
            raise RuntimeError(made.stderr)
        return made.stdout.splitlines()

    def rows(self, sql):
        return [line.split('|') for line in self.lines(sql)]

    def fresh(self):
        """SQL that makes the topology anew."""
        return ("SELECT topology.DropTopology('sheet') FROM topology.topology; "
                "SELECT topology.CreateTopology('sheet', 0, 0) \\g /dev/null\n")

    def build(self, tickets):
        """A fresh topology with the tickets carried out. Answers their answers."""
        lines = self.lines(self.fresh() + ''.join(f'SELECT answer($call${call(self, t)}$call$);\n' for t in tickets))
        return [line for line in lines if line.startswith(('done', 'refused'))]

    def counts(self):
        return [int(self.rows(f'SELECT count(*) FROM sheet.{t}')[0][0]) for t in ('node', 'edge_data', 'face')]

    def timed(self, tickets):
        """Round by round, (microseconds, answer) of each ticket, each undone; all in one session."""
        calls = ', '.join(f'$call${call(self, t)}$call$' for t in tickets)
        # rows of undone calls stay in the tables until they are vacuumed
        once = (f'VACUUM ANALYZE sheet.node, sheet.edge_data, sheet.face;\n'
                f'SELECT micros, answer FROM unnest(ARRAY[{calls}]) WITH ORDINALITY c(call, i), '
                f'LATERAL timed(call) ORDER BY i;\n')
        rows = [(float(micros), answer) for micros, answer in self.rows(once * ROUNDS)]
        return [rows[i:i + len(tickets)] for i in range(0, len(rows), len(tickets))]

    def histories(self, sheets):
        """For each list of tickets, from nothing: the answer and the edge rows after each ticket."""
        row = ("SELECT 'edge', edge_id, start_node, end_node, next_left_edge, next_right_edge, ST_AsText(geom)"
               ' FROM sheet.edge_data ORDER BY edge_id;\n')
        steps = [''.join(f'SELECT answer($call${call(self, t)}$call$);\n{row}' for t in tickets) for tickets in sheets]
        out = []
        for line in self.lines(''.join(f"SELECT 'sheet';\n{self.fresh()}{s}" for s in steps)):
            if line == 'sheet':
                out.append([])
            elif line.startswith('edge|'):
                out[-1][-1][1].append(edge_row(line.split('|')[1:]))
            elif line.startswith(('done', 'refused')):
                out[-1].append((line, []))
        return out

    def own_check(self):
        sql = f"SELECT error, 'ids ' || id1 || ', ' || id2 FROM topology.{self.CHECK}('sheet')"
        return [': '.join(row) for row in self.rows(sql)]

    def close(self):
        if self.server and self.server.poll() is None:
            self.server.send_signal(signal.SIGINT)  # fast shutdown
            with contextlib.suppress(subprocess.TimeoutExpired):
                self.server.wait(30)
            if self.server.poll() is None:
                self.server.kill()
                self.server.wait()
        shutil.rmtree(self.folder, ignore_errors=True)


# --- SpatiaLite ------------------------------------------------------------------------------------------------------

class Database:
    """SQLite through its C library: many builds of Python's own module cannot load extensions."""

    def __init__(self):
        name = ctypes.util.find_library('sqlite3')
        if not name:
            raise Missing('no SQLite library found')
        self.lib, self.db = ctypes.CDLL(name), ctypes.c_void_p()
        self.lib.sqlite3_errmsg.restype = self.lib.sqlite3_column_text.restype = ctypes.c_char_p
        self.lib.sqlite3_open(b':memory:', ctypes.byref(self.db))
        if not hasattr(self.lib, 'sqlite3_load_extension'):
            raise Missing('the SQLite library cannot load extensions')
        self.lib.sqlite3_enable_load_extension(self.db, 1)
        if self.lib.sqlite3_load_extension(self.db, b'mod_spatialite', None, None):
            raise Missing('SQLite cannot load mod_spatialite')

    def rows(self, sql):
        """The rows as text; RuntimeError with SQLite's message where the statement fails."""
        statement, lib = ctypes.c_void_p(), self.lib
        bad = lib.sqlite3_prepare_v2(self.db, sql.encode(), -1, ctypes.byref(statement), None)
        out = []
        while not bad and (code := lib.sqlite3_step(statement)) != 101:
            bad = code != 100
            if not bad:
                out.append([lib.sqlite3_column_text(statement, i) for i in range(lib.sqlite3_column_count(statement))])
        message = lib.sqlite3_errmsg(self.db).decode() if bad else ''
        lib.sqlite3_finalize(statement)
        if bad:
            raise RuntimeError(message)
        return [[c.decode() if c is not None else '' for c in r] for r in out]

    def close(self):
        self.lib.sqlite3_close(self.db)


@contextlib.contextmanager
def hushed():
    """RTTOPO writes each refusal to the process's standard error."""
    sys.stderr.flush()
    kept, nothing = os.dup(2), os.open(os.devnull, os.O_WRONLY)
    os.dup2(nothing, 2)
    try:
        yield
    finally:
        os.dup2(kept, 2)
        os.close(kept)
        os.close(nothing)


class SpatiaLite:
    NAME, SETTING, CHECK = 'SpatiaLite', 'in memory', 'ST_ValidateTopoGeo'
    PREFIX, POINT, CURVE = 'ST_', 'MakePoint({}, {}, -1)', "GeomFromText('LINESTRING({})', -1)"
    NAMES = {3: 'RemIsoNode', 5: 'RemIsoEdge'}

    def __init__(self):
        self.db = Database()
        try:
            with hushed():
                self.version = 'SpatiaLite {}, RTTOPO {}, GEOS {}, SQLite {}, in memory'.format(
                    *self.db.rows('SELECT spatialite_version(), rttopo_version(), geos_version(), sqlite_version()')[0])
                self.db.rows("SELECT InitSpatialMetaData(1, 'NONE')")
                self.fresh()
        except RuntimeError as e:
            self.close()
            raise Missing(f'mod_spatialite without topology: {e}') from e

    def fresh(self):
        self.db.rows("SELECT DropTopology('sheet')")
        if self.db.rows("SELECT CreateTopology('sheet', -1, 0, 0)") != [['1']]:
            raise RuntimeError('CreateTopology failed')

    def answer(self, ticket):
        try:
            return 'done ' + self.db.rows(call(self, ticket))[0][0]
        except RuntimeError as e:
            return f'refused {e}'

    def build(self, tickets):
        with hushed():
            self.fresh()
            self.db.rows('BEGIN')
            answers = [self.answer(t) for t in tickets]
            self.db.rows('COMMIT')
            return answers

    def counts(self):
        return [int(self.db.rows(f'SELECT count(*) FROM sheet_{t}')[0][0]) for t in ('node', 'edge', 'face')]

    def timed(self, tickets):
        with hushed():
            self.db.rows('BEGIN')
            out = [[self.undone(t) for t in tickets] for _ in range(ROUNDS)]
            self.db.rows('ROLLBACK')
            return out

    def undone(self, ticket):
        self.db.rows('SAVEPOINT place')
        start = time.perf_counter()
        answer = self.answer(ticket)
        micros = (time.perf_counter() - start) * 1e6
        self.db.rows('ROLLBACK TO place')
        self.db.rows('RELEASE place')
        return micros, answer

    def histories(self, sheets):
        row = ('SELECT edge_id, start_node, end_node, next_left_edge, next_right_edge, AsText(geom)'
               ' FROM sheet_edge ORDER BY edge_id')
        out = []
        with hushed():
            for tickets in sheets:
                self.fresh()
                out.append([(self.answer(t), [edge_row(r) for r in self.db.rows(row)]) for t in tickets])
        return out

    def own_check(self):
        with hushed():
            self.db.rows(f"SELECT {self.CHECK}('sheet')")
            return [' '.join(row) for row in self.db.rows('SELECT * FROM sheet_validate_topogeo')]

    def close(self):
        self.db.close()


# --- times -----------------------------------------------------------------------------------------------------------

def built(engine, sheet):
    """The sheet drawn on the engine, with every number as predicted. Answers the row counts."""
    for ticket, answer, number in zip(sheet.tickets, engine.build(sheet.tickets), sheet.answers, strict=True):
        if answer != f'done {number}':
            raise SystemExit(f'{engine.NAME}: ticket {ticket} answers {answer}, not {number}')
    rows = engine.counts()
    assert rows == [sheet.nodes, sheet.edges, sheet.faces], rows
    return rows


def timed_at(engine, tickets, outcome):
    """The median over the tickets, or None where one ends otherwise; and the first that does."""
    rounds = engine.timed(tickets)
    odd = [f'{t}: {a}' for t, (_, a) in zip(tickets, rounds[0], strict=True) if not a.startswith(outcome)]
    least = [min(micros for micros, _ in same) for same in zip(*rounds)]
    return (None if odd else statistics.median(least)), odd[:1]


def measure(engine, target):
    """Row counts; by kind the time carried out and turned down; tickets that do not end as with Solgwid."""
    sheet, plots = grid(target)
    rows, times, odd = built(engine, sheet), [], []
    for kind in range(1, len(KINDS) + 1):
        pairs = [pair for pair in (at_place(kind, p) for p in plots) if pair]
        chosen = [pairs[i * 13 % len(pairs)] for i in range(PLACES)]
        halves = [timed_at(engine, tickets, outcome) for tickets, outcome in zip(zip(*chosen), ('done', 'refused'))]
        times.append([micros for micros, _ in halves])
        odd += [text for _, texts in halves for text in texts]
    assert engine.counts() == rows, 'a timed call was not undone'
    return rows, times, odd


def mean(values):
    known = [v for v in values if v is not None]
    return statistics.fmean(known) if known else math.nan


def shown(pair):
    return ' / '.join('-' if v is None else f'{v:.1f}' for v in pair)


def report(engine, measured):
    """The table in the layout of bench.rs; no bare pass, the rows being out of reach."""
    print(f'\n{engine.version}\n')
    print(f"{'nodes/edges/faces':>24}" + ''.join(f"{'/'.join(map(str, rows)):>24}" for rows, _, _ in measured))
    print(f"{'kind':>24}   carried out / turned down, us")
    for kind, name in enumerate(KINDS, 1):
        print(f"{f'{name} {kind}':>24}" + ''.join(f'{shown(times[kind - 1]):>24}' for _, times, _ in measured))
    means = [[mean(column) for column in zip(*times)] for _, times, _ in measured]
    print(f"{'mean, us':>24}" + ''.join(f'{shown(m):>24}' for m in means))
    if len(measured) > 1:
        span = math.log(measured[-1][0][1] / measured[0][0][1])
        growth = [math.log(b / a) / span for a, b in zip(means[0], means[-1])]
        print(f"{'growth':>24}   carried out n^{growth[0]:.2f}, turned down n^{growth[1]:.2f}")
    for text in dict.fromkeys(o for _, _, odd in measured for o in odd):
        print(f'    not as Solgwid answers, so not timed: {text}')
    sys.stdout.flush()


def record(path, engine, measured):
    """Adds the times to the CSV file."""
    new = not os.path.exists(path)
    with open(path, 'a', newline='') as file:
        file.write(f'# {engine.version}\n')
        out = csv.writer(file, lineterminator='\n')
        if new:
            out.writerow(COLUMNS)
        for rows, times, _ in measured:
            for kind, pair in enumerate(times, 1):
                name = engine.version.split(',')[0]
                out.writerow([name, engine.SETTING, kind, rows[1], *('' if t is None else f'{t:.1f}' for t in pair)])


# --- links -----------------------------------------------------------------------------------------------------------

# curves with at most three edges: dangling, closed, and both at one node
SHAPES = {
    'one edge': ['0 0 20 0'],
    'a loop': ['0 0 20 0 20 20 0 20 0 0'],
    'two edges in a row': ['0 0 20 0', '20 0 40 10'],
    'two edges round a plot': ['0 0 20 0', '0 0 0 20 20 20 20 0'],
    'two loops at a node': ['40 40 60 40 60 60 40 40', '40 40 20 40 20 20 40 40'],
    'a loop, an edge outside': ['40 40 60 40 60 60 40 40', '40 40 20 40'],
    'a loop, an edge inside': ['40 40 80 40 80 80 40 80 40 40', '40 40 60 60'],
    'three edges at a node': ['40 40 60 40', '40 40 20 60', '40 40 20 20'],
    'three edges in a row': ['0 0 20 0', '20 0 40 10', '40 10 60 0'],
    'three edges round a plot': ['0 0 20 0', '20 0 20 20', '20 20 0 0'],
    'three edges between two nodes': ['0 20 40 20', '0 20 0 0 40 0 40 20', '0 20 0 40 40 40 40 20'],
    'an edge between two loops': ['40 40 60 40', '40 40 20 60 20 20 40 40', '60 40 80 20 80 60 60 40'],
}


def points_of(text):
    numbers = [int(n) for n in text.split()]
    return list(zip(numbers[::2], numbers[1::2]))


def drawn(curves):
    """Tickets that draw the curves: their ends by kind 1, then each by kind 12."""
    ends = list(dict.fromkeys(p for c in curves for p in (c[0], c[-1])))
    node = {p: n for n, p in enumerate(ends, 1)}
    return [(1, -1, *p) for p in ends] + [(12, node[c[0]], node[c[-1]], *itertools.chain(*c)) for c in curves]


def cut_sheets():
    """Every shape, each edge drawn in both directions and split in its first segment by kinds 7 and 8."""
    for name, texts in SHAPES.items():
        for ways in itertools.product((1, -1), repeat=len(texts)):
            curves = [points_of(t)[::w] for t, w in zip(texts, ways)]
            for edge, curve in enumerate(curves, 1):
                (a, b), (c, d) = curve[:2]
                for kind in (7, 8):
                    yield name, drawn(curves) + [(kind, edge, (a + c) // 2, (b + d) // 2)]


def turn(a, b):
    """Negative where vector a comes before b counterclockwise from (1, 0)."""
    half = [v[1] < 0 or (v[1] == 0 and v[0] < 0) for v in (a, b)]
    return half[0] - half[1] or a[1] * b[0] - a[0] * b[1]


def lawful(rows):
    """The links of the law by edge: the next of d is the first departure met clockwise from the reverse of d."""
    around = {}
    for (e, start, end, _, _), curve in rows:
        for d, node, p, q in ((e, start, curve[0], curve[1]), (-e, end, curve[-1], curve[-2])):
            around.setdefault(node, []).append(((q[0] - p[0], q[1] - p[1]), d))
    following = {}
    for departures in around.values():
        order = [d for _, d in sorted(departures, key=functools.cmp_to_key(lambda a, b: turn(a[0], b[0])))]
        for i, d in enumerate(order):
            following[-d] = order[i - 1]  # with no other, d itself
    return {e: (following[e], following[-e]) for (e, *_), _ in rows}


def written(rows):
    return {row[0]: row[3:] for row, _ in rows}


def reference_says(tickets, *options):
    """What the reference prints."""
    text = ''.join(' '.join(map(str, t)) + '\n' for t in tickets)
    words = [sys.executable, str(REFERENCE / 'ticket.py'), '--level', str(LEVEL), *options]
    return subprocess.run(words, input=text, capture_output=True, text=True, check=True).stdout


def reference_links(tickets):
    """The links that the reference writes."""
    out = reference_says(tickets, '--dump')
    lines = out[out.rindex('\nH '):].splitlines()
    rows = [[int(w) for w in line.split()[1:]] for line in lines if line.startswith('E ')]
    return {r[0]: tuple(r[3:5]) for r in rows}


def strays(rows):
    """In words, each link that does not even leave the node at which it is taken."""
    leaves = {d: node for (e, start, end, _, _), _ in rows for d, node in ((e, start), (-e, end))}
    for (e, start, end, left, right), _ in rows:
        for d, node, link in ((e, end, left), (-e, start, right)):
            if leaves.get(link) != node:
                yield f'{d} arrives at node {node}, its next {link} leaves node {leaves.get(link)}'


def first_fault(tickets, history):
    """The tickets up to the first after which a link is not the law's, with the edge rows then; None where all are."""
    for n, (answer, rows) in enumerate(history, 1):
        if answer.startswith('done') and written(rows) != lawful(rows):
            return tickets[:n], rows
    return None


def points_shown(curve):
    return ', '.join(f'{x} {y}' for x, y in curve)


def show_fault(name, tickets, rows):
    law, reference = lawful(rows), reference_links(tickets)
    print(f'    {name}')
    for t in tickets:
        print(f"    {' '.join(map(str, t)):<48} {KINDS[t[0] - 1]}")
    print(f"    {'edge':>6}{'nodes':>10}   {'links written':<18}{'by the law':<18}reference   curve")
    for (e, start, end, *links), curve in rows:
        ours = '{} {}'.format(*reference[e]) if e in reference else 'no such edge'
        mark = '' if tuple(links) == law[e] else '  <- wrong'
        print(f"    {e:>6}{f'{start} -> {end}':>10}   {'{} {}'.format(*links):<18}{'{} {}'.format(*law[e]):<18}"
              f"{ours:<12}{points_shown(curve)}{mark}")
    for text in strays(rows):
        print(f'    {text}')


def hold_links(engine):
    """Every cut sheet on the engine; the smallest fault of each kind of ticket is shown."""
    sheets = list(cut_sheets())
    faults, refused = {}, 0
    for (name, tickets), history in zip(sheets, engine.histories([t for _, t in sheets]), strict=True):
        refused += sum(answer.startswith('refused') for answer, _ in history)
        fault = first_fault(tickets, history)
        if fault:
            faults.setdefault(fault[0][-1][0], []).append((name, *fault))
    print(f'\n{engine.version}')
    print(f'  {len(sheets)} sheets, half of them ending in kind 7 and half in kind 8; {refused} tickets turned down')
    if not faults:
        print('  no fault shown: every link is the one of the law')
    for kind, found in sorted(faults.items()):
        shapes = '; '.join(dict.fromkeys(name for name, _, _ in found))
        print(f"\n  {KINDS[kind - 1]} (kind {kind}) leaves a link that is not the law's on {len(found)} sheets")
        print(f'  ({shapes})')
        print('  the one with the fewest numbers:')
        smallest = min(found, key=lambda f: sum(map(len, f[1])))
        show_fault(*smallest)
        engine.build(smallest[1])
        print(f"    {engine.CHECK}, the engine's own check, says: {'; '.join(engine.own_check()) or 'nothing wrong'}")
    sys.stdout.flush()


# --- sluices ---------------------------------------------------------------------------------------------------------

def renamed(rows, e, h):
    """The rows with the edge e numbered h, in links too; by number."""
    names = {e: h, -e: -h}
    return sorted(((names.get(n, n), start, end, names.get(left, left), names.get(right, right)), curve)
                  for (n, start, end, left, right), curve in rows)


def sluice_fault(kind, e, h, at, history):
    """What is not as before after a split and its heal, in words; nothing where all is."""
    (_, before), (split, _), (heal, after) = history[-3:]
    if not split.startswith('done') or not heal.startswith('done'):
        return (heal if split.startswith('done') else 'split ' + split).replace('refused', 'turned down,')
    want = renamed(before, e, h) if kind == 7 else before
    numbers = {row[0] for row, _ in after}
    if any(abs(link) not in numbers for row, _ in after for link in row[3:]):
        return 'a link to an edge that is gone'
    if [row for row, _ in after] != [row for row, _ in want]:
        return 'other links or numbers'
    if after == want:
        return ''
    healed = h if kind == 7 else e
    without = [(row, tuple(p for p in c if p != at) if row[0] == healed else c) for row, c in after]
    return 'the cut point left in the curve' if without == want else 'another curve'


def hold_sluices(engine):
    """Every cut sheet with the heal behind it; the smallest fault of each sort is shown."""
    sheets = []
    for name, tickets in cut_sheets():
        kind, e = tickets[-1][:2]
        n = sum(t[0] == 12 for t in tickets)
        heal = (10, e, n + 1) if kind == 8 else (9, n + 1, n + 2)
        sheets.append((name, kind, e, n + 3, tickets[-1][2:], tickets + [heal]))
    found = {}
    for sheet, history in zip(sheets, engine.histories([s[-1] for s in sheets]), strict=True):
        found.setdefault((sheet[1], sluice_fault(*sheet[1:5], history)), []).append((sheet, history))
    print(f'\n{engine.version}')
    for (kind, fault), cases in sorted(found.items()):
        print(f"  kind {kind}, then {kind + 2}: {fault or 'edge rows as before'} on {len(cases)} sheets")
        if fault:
            (name, *_, tickets), history = min(cases, key=lambda c: sum(map(len, c[0][-1])))
            print(f'    {name}: ' + '; '.join(' '.join(map(str, t)) for t in tickets))
            for label, (answer, rows) in zip(('before', 'split', 'healed'), history[-3:]):
                print(f'    {label} ({answer}):', '; '.join(f'{row} {points_shown(c)}' for row, c in rows))
    sys.stdout.flush()


# --- redrawings ------------------------------------------------------------------------------------------------------

# a plot with a loop round it, one with two edges round it, and the second cut in two
PLOT = ('1 -1 10 10', '12 1 1 10 10 30 10 30 30 10 30 10 10')
PAIR = ('1 -1 10 20', '1 -1 30 20', '12 1 2 10 20 20 10 30 20', '12 1 2 10 20 20 30 30 20')
CUT = (*PAIR, '12 1 2 10 20 30 20')
WELL, DITCH = ('1 -1 25 25',), ('1 -1 24 25', '1 -1 26 25', '4 2 3 24 25 26 25')
TANK = ('1 -1 24 24', '12 2 2 24 24 26 24 26 26 24 26 24 24')
INWARD, OUTWARD = '6 1 10 10 30 10 19 19 10 30 10 10', '6 1 10 10 30 10 40 40 10 30 10 10'
BACK = '10 10 10 30 30 30 30 10 10 10'
REDRAWINGS = {
    'a loop past a well in it': (*PLOT, *WELL, INWARD),
    'a loop past a ditch in it': (*PLOT, *DITCH, INWARD),
    'a loop past a tank in it': (*PLOT, *TANK, INWARD),
    'a loop short of a well in it': (*PLOT, '1 -1 15 15', INWARD),
    'a loop round a well beside it': (*PLOT, '1 -1 32 32', OUTWARD),
    'a loop round a ditch beside it': (*PLOT, '1 -1 31 32', '1 -1 32 31', '4 2 3 31 32 32 31', OUTWARD),
    'a loop with nothing in it, the other way round': (*PLOT, f'6 1 {BACK}'),
    'a loop with a well in it, the other way round': (*PLOT, *WELL, f'6 1 {BACK}'),
    'a tank in a plot, the other way round': (*PLOT, *TANK, '6 2 24 24 24 26 26 26 26 24 24 24'),
    'a loop to the far side of its node': (*PLOT, '6 1 10 10 5 10 5 5 10 5 10 10'),
    'a loop to the far side of its node, the other way round': (*PLOT, '6 1 10 10 10 5 5 5 5 10 10 10'),
    'one of two edges past a well between them': (*PAIR, '1 -1 20 25', '6 2 10 20 20 22 30 20'),
    'one of two edges to the far side of the other': (*PAIR, '6 1 10 20 10 40 30 40 30 20'),
    'one of two edges to the far side of the other, past a well': (*PAIR, '1 -1 20 35', '6 1 10 20 10 40 30 40 30 20'),
    'an outer edge of two plots round both': (*CUT, '6 1 10 20 5 20 5 40 35 40 35 20 30 20'),
    'an outer edge of two plots round both and a well': (*CUT, '1 -1 20 35', '6 1 10 20 5 20 5 40 35 40 35 20 30 20'),
    'a ditch with one plot on both banks, over a well': (
        '1 -1 10 10', '1 -1 30 10', '4 1 2 10 10 30 10', '1 -1 20 15', '6 1 10 10 20 20 30 10'),
    'a stub in a plot, over a well': (*PLOT, '1 -1 20 20', '12 1 2 10 10 20 20', '1 -1 20 15', '6 2 10 10 22 12 20 20'),
}


def hold_redrawings(engine):
    """Each redrawing on the engine, beside the reference's refusal."""
    print(f'\n{engine.version}')
    for name, lines in REDRAWINGS.items():
        tickets = [tuple(map(int, line.split())) for line in lines]
        *before, last = reference_says(tickets).splitlines()
        *drawn, answer = engine.build(tickets)
        assert all(a.startswith('0 ') for a in before) and all(a.startswith('done') for a in drawn), name
        refusal = last.split()[0]
        told = '; '.join(engine.own_check()) or 'nothing wrong'
        own = f'; its {engine.CHECK}: {told}' if refusal != '0' and answer.startswith('done') else ''
        print(f'  {refusal:>2}  {name}: {answer}{own}')
    sys.stdout.flush()


# --- points along straight runs --------------------------------------------------------------------------------------

ENDS = ('1 -1 0 0', '1 -1 12 0')
SURVEYS = {
    'an isolated edge with points along it': (*ENDS, '4 1 2 0 0 3 0 8 0 12 0'),
    'an edge with points along both of its runs': (*ENDS, '12 1 2 0 0 3 3 6 6 9 3 12 0'),
    'a loop that starts on a straight side': ('1 -1 10 0', '12 1 1 10 0 20 0 20 20 10 20 0 20 0 0 5 0 10 0'),
    'an edge redrawn with points along it': (*ENDS, '12 1 2 0 0 12 0', '6 1 0 0 4 2 6 3 9 1 12 0'),
    'a point sent twice': (*ENDS, '12 1 2 0 0 6 6 6 6 12 0'),
    'a point sent twice on a straight run': (*ENDS, '12 1 2 0 0 6 0 6 0 12 0'),
    'a line that doubles back': (*ENDS, '12 1 2 0 0 8 0 4 0 12 0'),
}


def reference_survey(tickets):
    """The reference's last answer, and the points of its last edge."""
    lines = reference_says(tickets, '--dump').splitlines()
    edges = [line.split() for line in lines if line.startswith('E ')]
    return [line for line in lines if line[0].isdigit()][-1], int(edges[-1][8]) if edges else 0


def hold_surveys(engine):
    """Each line on the engine, beside the reference."""
    sheets = [[tuple(map(int, line.split())) for line in lines] for lines in SURVEYS.values()]
    print(f'\n{engine.version}')
    for name, tickets, history in zip(SURVEYS, sheets, engine.histories(sheets), strict=True):
        answer, rows = history[-1]
        said, left = reference_survey(tickets)
        stored = f', {len(rows[-1][1])} points' if answer.startswith('done') else ''
        ours = f'{said.split()[0]}, {left} points' if said.startswith('0') else said.split()[0]
        print(f'  {ours}: {name}: {answer}{stored}')
    sys.stdout.flush()


def size(word):
    if not word.isdigit() or int(word) < 20:
        raise argparse.ArgumentTypeError('a size is a number of edges, 20 or more')
    return int(word)


def arguments():
    parser = argparse.ArgumentParser(description=__doc__, formatter_class=argparse.RawDescriptionHelpFormatter)
    parser.add_argument('sizes', nargs='*', type=size, default=[100, 500], metavar='SIZE')
    parser.add_argument('--csv', metavar='FILE')
    parser.add_argument('--links', dest='hold', action='store_const', const=hold_links)
    parser.add_argument('--sluices', dest='hold', action='store_const', const=hold_sluices)
    parser.add_argument('--redrawings', dest='hold', action='store_const', const=hold_redrawings)
    parser.add_argument('--surveys', dest='hold', action='store_const', const=hold_surveys)
    return parser.parse_args()


def main():
    asked = arguments()
    signal.signal(signal.SIGTERM, lambda *_: sys.exit(1))  # so that the server is stopped then too
    for kind in (PostGis, SpatiaLite):
        try:
            engine = kind()
        except Missing as e:
            print(f'\n{kind.NAME}: left out, {e}')
            continue
        with contextlib.closing(engine):
            if asked.hold:
                asked.hold(engine)
                continue
            measured = [measure(engine, target) for target in asked.sizes]
            report(engine, measured)
            if asked.csv:
                record(asked.csv, engine, measured)


if __name__ == '__main__':
    main()
