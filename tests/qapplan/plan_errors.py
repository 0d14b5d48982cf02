"""Each message of `qapplan` about a plan, and about tables that do not fit together (docs/MESSAGES.md)."""

FLOWS = ",Saw,Lathe\nSaw,0,2.5\nLathe,1,0\n"
DISTANCES = ",A,B,C\nA,0,1.25,4\nB,2,0,3\nC,4,3,0\n"
PLACES = "name,x,y\nA,0,0\nB,3,4\nC,1.5,0\n"
TRIPS = "from,to,amount\nSaw,Lathe,2\n"
EMPTY = ",\n"

SYNTAX = "write a key, `=` and a file in quotes on each line, as in `flows = \"trips.csv\"`"
KEYS = ("a plan has the keys flows or trips, departments, distances or places, metric, decimals, decimal_mark, round, "
        "symmetric, duplicates, title, y, costs, fixed, forbidden and allowed")
NOT_ROUND = 'the key "round" must be a whole number from 0 to 9, without quotes, as in `round = 3`'
NOT_SYMMETRIC = 'the key "symmetric" must be true or false, without quotes, as in `symmetric = true`'
NOT_DECIMALS = 'the key "decimals" must be a whole number from 0 to 9, without quotes, as in `decimals = 2`'
NEITHER = 'the keys "{0}" and "{1}" are both missing: name the file of that table by one of them, as `{0} = "{0}.csv"`'
AMONG_FIXED = 'the key "{0}" is under `[fixed]`: move `[fixed]` and the lines that belong to it to the end of the plan'
FIXED_TYPE = ("write `[fixed]` on a line of its own, and below it a line such as `Saw = \"A\"` for each department that "
              "stays at its place")
LIST = 'write a list of names, as in `departments = ["Saw", "Lathe"]`'

MATRICES = "flows = 'f.csv'\ndistances = 'd.csv'\n"
SOME_PLACES = "flows = 'f.csv'\nplaces = 'p.csv'\n"
SOME_TRIPS = "trips = 't.csv'\ndistances = 'd.csv'\n"

# The text of a plan, and what is said of it.
PLANS = [
    ("flows = 'f.csv'\ndistances = d.csv\n", None),
    ("flows = 'f.csv\n", None),
    ("flows\n", None),
    ("flows = 'f.csv'\nflows = 'f.csv'\ndistances = 'd.csv'\n", None),
    ("\xff", None),
    ("flow = 'f.csv'\ndistances = 'd.csv'\n", f'the key "flow" is unknown: {KEYS}'),
    (f"{MATRICES}Flows = 'f.csv'\n", f'the key "Flows" is unknown: {KEYS}'),
    ("", NEITHER.format("flows", "trips")),
    ("# nothing\n", NEITHER.format("flows", "trips")),
    ("distances = 'd.csv'\n", NEITHER.format("flows", "trips")),
    ("flows = 'f.csv'\n", NEITHER.format("distances", "places")),
    ("[fixed]\nSaw = 'A'\nflows = 'f.csv'\ndistances = 'd.csv'\n", AMONG_FIXED.format("flows")),
    ("distances = 'd.csv'\n[fixed]\ntrips = 't.csv'\n", AMONG_FIXED.format("trips")),
    ("flows = 'f.csv'\n[fixed]\nSaw = 'A'\ndistances = 'd.csv'\n", AMONG_FIXED.format("distances")),
    ("flows = 'f.csv'\nfixed = 3\n", NEITHER.format("distances", "places")),
    (f"{MATRICES}trips = 't.csv'\n", 'the keys "flows" and "trips" are both present: keep one of them'),
    (f"{MATRICES}places = 'p.csv'\n", 'the keys "distances" and "places" are both present: keep one of them'),
    ("flows = 3\ndistances = 'd.csv'\n", 'the key "flows" has the type integer: write a text in quotes'),
    ("trips = 1.5\ndistances = 'd.csv'\n", 'the key "trips" has the type float: write a text in quotes'),
    ("flows = 'f.csv'\ndistances = ['d.csv']\n", 'the key "distances" has the type array: write a text in quotes'),
    ("flows = 'f.csv'\nplaces = true\nmetric = 'squared'\n",
     'the key "places" has the type boolean: write a text in quotes'),
    (f"{SOME_PLACES}metric = {{}}\n", 'the key "metric" has the type table: write a text in quotes'),
    (f"{MATRICES}departments = ['Saw']\n",
     'the key "departments" goes with "trips", which is missing: remove it, or add that one'),
    (f"{MATRICES}metric = 'squared'\n",
     'the key "metric" goes with "places", which is missing: remove it, or add that one'),
    (f"{MATRICES}y = 'down'\n", 'the key "y" goes with "places", which is missing: remove it, or add that one'),
    (f"{SOME_PLACES}metric = 'squared'\ny = 'left'\n", 'the key "y" says "left": write "up" or "down"'),
    (f"{MATRICES}title = 3\n", 'the key "title" has the type integer: write a text in quotes'),
    (f"{MATRICES}decimal_mark = ';'\n", 'the key "decimal_mark" says ";": write "." or ","'),
    (f"{MATRICES}decimal_mark = 1\n", 'the key "decimal_mark" has the type integer: write a text in quotes'),
    (f"{MATRICES}decimals = 2\n",
     'the key "decimals" goes with "places", which is missing: remove it, or add that one'),
    (SOME_PLACES,
     'the key "metric" is missing: "places" needs it; write `metric = "rectilinear"`, or "euclidean" or "squared"'),
    (f"{SOME_PLACES}metric = 'manhattan'\n",
     'the key "metric" says "manhattan": write "rectilinear", "euclidean" or "squared"'),
    (f"{SOME_PLACES}metric = 'euclidean'\ndecimals = 10\n", NOT_DECIMALS),
    (f"{SOME_PLACES}metric = 'euclidean'\ndecimals = -1\n", NOT_DECIMALS),
    (f"{SOME_PLACES}metric = 'euclidean'\ndecimals = '2'\n", NOT_DECIMALS),
    (f"{SOME_PLACES}metric = 'euclidean'\ndecimals = 2.0\n", NOT_DECIMALS),
    (f"{SOME_PLACES}metric = 'squared'\ndecimals = 1\n",
     'the key "decimals" goes with `metric = "euclidean"` alone: distances by "squared" are exact, so remove it'),
    (f"{SOME_PLACES}metric = 'rectilinear'\ndecimals = 1\n",
     'the key "decimals" goes with `metric = "euclidean"` alone: distances by "rectilinear" are exact, so '
     'remove it'),
    (f"{SOME_TRIPS}departments = 'Saw'\n", f'the key "departments" has the type string: {LIST}'),
    (f"{SOME_TRIPS}departments = []\n", 'the key "departments" has 0 names: write 1 to 256'),
    (f"{SOME_TRIPS}departments = {[str(i) for i in range(257)]}\n",
     'the key "departments" has 257 names: write 1 to 256'),
    (f"{SOME_TRIPS}departments = ['Saw', 3]\n",
     'the key "departments[2]" has the type integer: write a name in quotes'),
    (f"{SOME_TRIPS}departments = ['Saw', '']\n",
     'the key "departments[2]" is empty: write a name there, or remove it'),
    (f"{SOME_TRIPS}departments = ['Saw', 'Lathe', 'Saw']\n",
     'the key "departments[3]": the name "Saw" occurs twice: give each department a name of its own'),
    (f"{MATRICES}fixed = 'A'\n", f'the key "fixed" has the type string: {FIXED_TYPE}'),
    (f"{MATRICES}[[fixed]]\nSaw = 'A'\n", f'the key "fixed" has the type array: {FIXED_TYPE}'),
    (f"{MATRICES}[fixed]\nSaw = 4\n", 'the key "fixed.Saw" has the type integer: write the name of a place in quotes'),
    (f"{MATRICES}[fixed]\nMill = 'A'\n",
     'the key "fixed.Mill": no department has that name: correct it, or remove the line'),
    (f"{MATRICES}[fixed]\nSaw = 'A'\nround = '3'\n",
     'the key "round" is under `[fixed]`: move `[fixed]` and the lines that belong to it to the end of the plan'),
    (f"{MATRICES}round = '3'\n", NOT_ROUND),
    (f"{MATRICES}round = 10\n", NOT_ROUND),
    (f"{MATRICES}round = -1\n", NOT_ROUND),
    (f"{MATRICES}symmetric = 'true'\n", NOT_SYMMETRIC),
    (f"{MATRICES}symmetric = 1\n", NOT_SYMMETRIC),
    (f"{MATRICES}duplicates = 'max'\n", 'the key "duplicates" says "max": write "sum", or remove it'),
    (f"{MATRICES}duplicates = true\n", 'the key "duplicates" has the type boolean: write a text in quotes'),
    (f"{MATRICES}[fixed]\nSaw = 'D'\n",
     'the key "fixed.Saw": no place has the name "D": correct it, or remove the line'),
    # The keys of a table are judged in the order of their names.
    (f"{MATRICES}[fixed]\nSaw = 'A'\nLathe = 'A'\n",
     'the key "fixed.Saw": another department is fixed at "A": give each a place of its own'),
    ("flows = 'd.csv'\ndistances = 'f.csv'\n",
     "there are 3 departments and 2 places: add places to their table, or take departments out of theirs"),
]

# Names and files with control characters, as TOML spells them: messages show them escaped.
TEXT = "write its text without line breaks, tabs and other control characters"
NAMES = "write names without line breaks, tabs and other control characters"
CONTROLS = [
    ('flows = "f\\u001b.csv"\ndistances = \'d.csv\'\n', f'the key "flows" has the control character U+001B: {TEXT}'),
    (f'{SOME_TRIPS}departments = ["Saw", "B\\ncost 0"]\n',
     f'the key "departments[2]" has the control character U+000A: {NAMES}'),
    (f'{MATRICES}[fixed]\n"Saw\\u0007" = "A"\n',
     f'the key "fixed.Saw\\u{{7}}" has the control character U+0007: {NAMES}'),
    (f'{MATRICES}[fixed]\nSaw = "A\\u0085"\n',
     f'the key "fixed.Saw": the place\'s name has the control character U+0085: {NAMES}'),
    ('"fl\\u001b[2Jows" = "a.csv"\n', f'the key "fl\\u{{1b}}[2Jows" is unknown: {KEYS}'),
]

# The line and the column of the texts above that are no TOML, counted from 1: where the value or the key that is at
# fault stands.
SYNTAX_PLACES = ["line 2, column 13", "line 1, column", "line 1, column", "line 2, column 1", "line 1, column 1"]

UNREAD = "the file can't be read: name one that is there; tables are looked up from the plan's folder"

# A command line, and what is said of which file. A folder opens, and cannot be read.
UNREADABLE = [
    ("qapplan solve none.toml", "none.toml"),
    ("mkdir a.toml; qapplan solve a.toml", "a.toml"),
    ("rm f.csv; qapplan solve plan.toml", "f.csv"),
    ("rm d.csv; mkdir d.csv; qapplan solve plan.toml", "d.csv"),
    ("mkdir in; cp plan.toml f.csv in; qapplan solve in/plan.toml", "in/d.csv"),
    ("sed -i s,d.csv,/none/d.csv, plan.toml; qapplan solve plan.toml", "/none/d.csv"),
    ("qapplan convert none.toml -o a.dat", "none.toml"),
    ("qapplan split none.toml --parts 2 -o a", "none.toml"),
    ("qapplan part none.toml --node '' --start a -o b", "none.toml"),
    ("qapplan show none.toml a.json", "none.toml"),
    ("qapplan check none.toml a.json", "none.toml"),
]


def shared():
    for name, text in (("f", FLOWS), ("d", DISTANCES), ("p", PLACES), ("t", TRIPS)):
        yield f"bytes {name}.csv: " + text.replace("\n", "\\n")


def cases():
    yield from shared()
    places = iter(SYNTAX_PLACES)
    for number, (text, message) in enumerate(PLANS):
        yield f"case: plan {number}: {message or 'no TOML'}".replace("\n", " ")
        yield "bytes plan.toml: " + text.replace("\n", "\\n").replace("\xff", "\\xff")
        yield "run: qapplan solve plan.toml\nstatus: 1"
        if message:
            yield f"stderr: error: plan.toml: {message}"
        else:
            yield f"stderr matches: error: plan\\.toml: {next(places)}.*: .*: {SYNTAX}"
    for number, (text, message) in enumerate(CONTROLS):
        yield f"case: control character {number}"
        yield "bytes plan.toml: " + text.replace("\\", "\\\\").replace("\n", "\\n")
        yield f"run: qapplan solve plan.toml\nstatus: 1\nstderr: error: plan.toml: {message}"
    for number, (command, name) in enumerate(UNREADABLE):
        yield f"case: unreadable {number}: {command}\nfile plan.toml:\n    flows = 'f.csv'\n    distances = 'd.csv'"
        yield f"run: {command}\nstderr: error: {name}: {UNREAD}\nstatus: 1"
