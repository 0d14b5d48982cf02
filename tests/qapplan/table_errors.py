"""Each message of `qapplan` about a table (docs/MESSAGES.md), with its line and field."""

MATRIX_HEAD = "begin with a line of an empty field and the names, as `,Saw,Lathe`"
NO_NAME = "write an empty field and then 1 to 256 names, as in `,Saw,Lathe`"
EMPTY_NAME = "write a name there, or remove its column or its line"
TWICE = "give each a name of its own"
ORDER = "give the rows the columns' names, in any order"
EACH_COLUMN = "write a number for each column"
EXTRA_CELL = "is one too many: remove it, or put a number with a comma in quotes"
NO_NUMBER = "is not a number: write digits and at most one decimal mark, such as `12`, `-0.25` or `1e3`, with no unit"
TOO_LARGE = ("is too large: times the power of ten that makes all numbers whole it lies outside -10^9 to 10^9; round "
             "the numbers or choose a larger unit")
ALIKE = "differ only in capital letters or blanks: spell them alike, or give one another name"
NO_NAMES = "where names should be: write an empty field and then the names, as in `,Saw,Lathe`"
TWO_READINGS = ("can be read in two ways, by a decimal point and by a decimal comma: say `decimal_mark = \".\"` or "
                "`decimal_mark = \",\"` in the plan")
TOTAL = "hold the sums of the others: remove both, since they would count as one more"
WORKBOOK = "the file is a workbook, not a text: save its sheet as CSV"
AFTER_QUOTE = ("text follows the closing quote: write a quote that belongs to the field twice, or remove the "
               "quotes")
QUOTE_INSIDE = ("a field without quotes has a quote inside: put the whole field in quotes, and write each quote "
                "inside twice")
LONE_RETURN = "a carriage return without a line feed follows: end each line in LF or CRLF"
OPEN_QUOTE = "the quote that opens this field is never closed: close it, or save the file again if its end is missing"
CONTROL = "the name has the control character {0}: write names without line breaks, tabs and other control characters"
TOO_FINE = "a number has more than 100 digits after the point: round the numbers, or choose a smaller unit"
COORDINATES = "a coordinate has more than 9 digits after the point: round the coordinates, or choose a smaller unit"
TOO_FAR = ("lie too far apart: with the digits after its point dropped, a distance is at most 10^9; round the "
           "coordinates, keep fewer decimals or choose a larger unit")
PAIR_FIELDS = "write two names and a number on each line"

MANY = [f"n{number}" for number in range(257)]

# The text of a matrix with names, and what is said of it.
MATRICES = [
    ("", f"the table is empty: {MATRIX_HEAD}"),
    ("\r\n\r\n", f"the table is empty: {MATRIX_HEAD}"),
    ("corner\n", f"line 1 has no name: {NO_NAME}"),
    ("|a|b\na|0|1\n", f"line 1 has no name: {NO_NAME}"),
    (f",{','.join(MANY)}\n", "line 1 has 257 names: at most 256 are read, so split the table"),
    (",a,,c", f"line 1, field 3 is empty: {EMPTY_NAME}"),
    (",a,b,a", f'line 1, field 4: the name "a" occurs twice: {TWICE}'),
    ("\n\n,a,a", f'line 3, field 3: the name "a" occurs twice: {TWICE}'),
    (",a,b\na,0,1\n", 'the row "b" is missing: write a row for each column'),
    (";a;b\nb;0;1\n", 'the row "a" is missing: write a row for each column'),
    (",a,b\na,0,1\nc,1,0\n", f'line 3, field 1: no column has the name "c": {ORDER}'),
    (",a,b\na,0,1\na,1,0\n", f'line 3, field 1: the name "a" occurs twice: {TWICE}'),
    (",a\na,0\nb,0\n", f'line 3, field 1: no column has the name "b": {ORDER}'),
    (",Saw,saw\nSaw,0,1\nsaw,1,0\n", f'the names "Saw" and "saw" {ALIKE}'),
    (",Store room,A,Storeroom\n", f'the names "Store room" and "Storeroom" {ALIKE}'),
    ("0,1,2\n1,0,3\n2,3,0\n", f'line 1 begins with the number "0" {NO_NAMES}'),
    ("1.5;2\n2;0\n", f'line 1 begins with the number "1.5" {NO_NAMES}'),
    (',a,b\na,0,"1,234"\nb,1,0\n', f'line 2, field 3: "1,234" {TWO_READINGS}'),
    (";a;b\na;0;1\nb;1.000;0\n", f'line 3, field 2: "1.000" {TWO_READINGS}'),
    (",a,b,Total\na,0,2,2\nb,3,0,3\nTotal,3,2,5\n", f'the row and the column "Total" {TOTAL}'),
    (",SUMME,a,b\nSUMME,0,3,2\na,2,0,2\nb,3,3,0\n", f'the row and the column "SUMME" {TOTAL}'),
    ("PK\x03\x04\x14\x00\x06\x00", WORKBOOK),
    (",a,b\na,0\nb,0,0\n", f"line 2, field 3 is missing: {EACH_COLUMN}"),
    (",a\na,3,5\n", f'line 2, field 3: the cell "5" {EXTRA_CELL}'),
    (",a\na,1e\n", f'line 2, field 2: "1e" {NO_NUMBER}'),
    (",a\na,1e0003\n", f'line 2, field 2: "1e0003" {NO_NUMBER}'),
    (",a\na,12 34\n", f'line 2, field 2: "12 34" {NO_NUMBER}'),
    (",a\na,.\n", f'line 2, field 2: "." {NO_NUMBER}'),
    (",a,b\na,0,-\nb,1,0\n", f'line 2, field 3: "-" {NO_NUMBER}'),
    (",a\na,--1\n", f'line 2, field 2: "--1" {NO_NUMBER}'),
    (",a\na,NaN\n", f'line 2, field 2: "NaN" {NO_NUMBER}'),
    (",a,b\na,0,1\nb,,0\n", f'line 3, field 2: "" {NO_NUMBER}'),
    (",a,b\na,0,0.1\nb,0,100000001\n", f'line 3, field 3: "100000001" {TOO_LARGE}'),
    (",a\na,-1000000001\n", f'line 2, field 2: "-1000000001" {TOO_LARGE}'),
    ("\xef\xbb\xbf,a,b\r\na,0,1\r\n\r\nb,x,0\r\n", f'line 4, field 2: "x" {NO_NUMBER}'),
    (",a\na\xff,0\n", f'line 2, field 1: no column has the name "\u00ff": {ORDER}'.replace("\u00ff", "a\u00ff")),
    (f",a\na,0.{'0' * 100}1\n", TOO_FINE),
    (',"a"x\n', f"line 1, field 2: {AFTER_QUOTE}"),
    (',a\na,"1" \n', f"line 2, field 2: {AFTER_QUOTE}"),
    (',a"b\n', f"line 1, field 2: {QUOTE_INSIDE}"),
    (",a\ra,0\r", f"line 1, field 2: {LONE_RETURN}"),
    (',a\na,"0', f"line 2, field 2: {OPEN_QUOTE}"),
    (',a\n"a,0\n', f"line 2, field 1: {OPEN_QUOTE}"),
    (',"a\ncost 0, optimal, proved"\n', f"line 1, field 2: {CONTROL.format('U+000A')}"),
    (",a\x7f\n", f"line 1, field 2: {CONTROL.format('U+007F')}"),
    (",a\xc2\x9b\n", f"line 1, field 2: {CONTROL.format('U+009B')}"),
    # Words that are no names are shown with their control characters escaped.
    (",a\na,\x1b[2J\n", f'line 2, field 2: "\\u{{1b}}[2J" {NO_NUMBER}'),
    (",a\na\x7f,0\n", f'line 2, field 1: no column has the name "a\\u{{7f}}": {ORDER}'),
]

# The text of a list of places, and what is said of it.
PLACES_HEAD = "the line `name,x,y`{0} and write a line for each place below it"
PLACES = [
    ("", f"the table is empty: begin with {PLACES_HEAD.format(',')}"),
    ("name,x\nA,1\n", f"line 1: expected {PLACES_HEAD.format(': begin with it,')}"),
    ("\nplace,x,y\nA,1,2\n", f"line 2: expected {PLACES_HEAD.format(': begin with it,')}"),
    ("name,x,y\n", "the table has no place: write a line for each below the first"),
    ("name,x,y\n" + "".join(f"{name},1,2\n" for name in MANY),
     "the table has 257 places: at most 256 are read, so split the table"),
    ("name,x,y\nA,1,2\n,3,4\n", f"line 3, field 1 is empty: {EMPTY_NAME}"),
    ("name,x,y\nA,1,2\nA,3,4\n", f'line 3, field 1: the name "A" occurs twice: {TWICE}'),
    ("name,x,y\nA,1\n", f"line 2, field 3 is missing: {EACH_COLUMN}"),
    ("name,x,y\nA,1,2,3\n", f'line 2, field 4: the cell "3" {EXTRA_CELL}'),
    ("name,x,y\nA,1,y\n", f'line 2, field 3: "y" {NO_NUMBER}'),
    ("name,x,y\nA,1,0.5\nB,1,200000000\n", f'line 3, field 3: "200000000" {TOO_LARGE}'),
    ("name,x,y\nA,1,2\nB,1,2.0\n", 'the places "A" and "B" are at the same point: give each its own'),
    ("name,x,y\nA,1,2\na,3,4\n", f'the names "A" and "a" {ALIKE}'),
    ("name,x,y\nA\tB,1,2\n", f"line 2, field 1: {CONTROL.format('U+0009')}"),
    ('name,x,y\nA,1,"2', f"line 2, field 3: {OPEN_QUOTE}"),
    ("name,x,y\nA,0,0\nB,0,0.0000000001\n", COORDINATES),
    ("name,x,y\nA,0,0\nB,0,100000\n", f'the places "A" and "B" {TOO_FAR}'),
]

# The text of a list of flows, and what is said of it.
TRIPS_HEAD = "the line `from,to,amount`{0} and write a line for each pair below it"
TRIPS = [
    ("", f"the table is empty: begin with {TRIPS_HEAD.format(',')}"),
    ("from|to|amount\n", f"line 1: expected {TRIPS_HEAD.format(': begin with it,')}"),
    ("from,to,amount\n",
     "the list has no pair: write a line for each below the first, or name the departments in the plan"),
    ("from,to,amount\n" + "".join(f"{name},{name},1\n" for name in MANY),
     'line 258, field 1: the name "n256" is that of a 257th department: at most 256 are read, so split '
     "the list"),
    ("from,to,amount\nA\n", f"line 2, field 2 is missing: {PAIR_FIELDS}"),
    ("from,to,amount\nA,B\n", f"line 2, field 3 is missing: {PAIR_FIELDS}"),
    ("from,to,amount\nA,B,3,5\n", f'line 2, field 4: the cell "5" {EXTRA_CELL}'),
    ("from,to,amount\nA,,3\n", f"line 2, field 2 is empty: {EMPTY_NAME}"),
    ("from,to,amount\nA,B,x\n", f'line 2, field 3: "x" {NO_NUMBER}'),
    ("from,to,amount\nA,B,3\nB,A,4\nA,B,3\n",
     'line 4, field 1: the pair from "A" to "B" occurs twice: write one line with the sum of both, or say '
     '`duplicates = "sum"` in the plan'),
    ("from,to,amount\nA,B,0.5\nB,A,500000001\n", f'line 3, field 3: "500000001" {TOO_LARGE}'),
    ("From;To;Amount\nA;B;3;5\n", f'line 2, field 4: the cell "5" {EXTRA_CELL}'),
    ("from,to,amount\nStore,B,1\nstore,B,2\n", f'the names "Store" and "store" {ALIKE}'),
    ("from,to,amount\nA,B\x00,3\n", f"line 2, field 2: {CONTROL.format('U+0000')}"),
    ('from,to,amount\nA,"B"x,3\n', f"line 2, field 2: {AFTER_QUOTE}"),
    (f"from,to,amount\nA,B,0.{'0' * 100}1\n", TOO_FINE),
]

# The text of a list of flows between given departments, A and B, and what is said of it.
BETWEEN = [
    ("from,to,amount\nA,A,1\nA,C,3\n",
     'line 3, field 2: no department has the name "C": correct it, or add it to the departments of the plan'),
]

# The text of a matrix each half of which stands for the other, and what is said of it.
HALVES = [
    (",a,b\na,0,1\nb,2,0\n",
     'the cells from "a" to "b" and back hold different numbers: with `symmetric = true` leave one of them empty, or '
     "write the same number in both"),
    (",a,b\na,0,1\nb,0,0\n",
     'the cells from "a" to "b" and back hold different numbers: with `symmetric = true` leave one of them empty, or '
     "write the same number in both"),
    (",a,b\na,0,\nb,,0\n", f'line 2, field 3: "" {NO_NUMBER}'),
    (",a,b\na,0\n", 'the row "b" is missing: write a row for each column'),
]

# The text of a list whose amounts add up, and what is said of it.
SUMS = [
    ("from,to,amount\nA,B,600000000\nB,A,1\nA,B,600000000\n",
     'line 4, field 3: the amounts from "A" to "B" add up to too much: times the power of ten that makes all numbers '
     "whole the sum lies outside -10^9 to 10^9; round the numbers or choose a larger unit"),
]

# A plan in which the table of each kind stands at X.
PLANS = {
    "halves": "flows = 'x.csv'\ndistances = 'd.csv'\nsymmetric = true\n",
    "sums": "trips = 'x.csv'\ndistances = 'd.csv'\nduplicates = 'sum'\n",
    "flows": "flows = 'x.csv'\ndistances = 'd.csv'\n",
    "distances": "flows = 'f.csv'\ndistances = 'x.csv'\n",
    "places": "flows = 'f.csv'\nplaces = 'x.csv'\nmetric = 'squared'\n",
    "trips": "trips = 'x.csv'\ndistances = 'd.csv'\n",
    "between": "trips = 'x.csv'\ndepartments = ['A', 'B']\ndistances = 'd.csv'\n",
}


def cases():
    yield "file f.csv:\n    ,Saw\n    Saw,1\nfile d.csv:\n    ,P,Q\n    P,0,1\n    Q,1,0"
    tables = [("flows", row) for row in MATRICES] + [("distances", row) for row in MATRICES[:9:4]]
    for kind, rows in (("places", PLACES), ("trips", TRIPS), ("between", BETWEEN), ("halves", HALVES),
                       ("sums", SUMS)):
        tables += [(kind, row) for row in rows]
    for number, (kind, (text, message)) in enumerate(tables):
        yield f"case: {kind} {number}: {message}\nbytes plan.toml: {escaped(PLANS[kind])}\nbytes x.csv: {escaped(text)}"
        yield f"run: qapplan solve plan.toml\nstderr: error: x.csv: {message}\nstatus: 1"


def escaped(text):
    return "".join(c if " " <= c <= "~" else f"\\x{ord(c):02x}" for c in text)
