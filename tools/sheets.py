"""A folder of CSV files: their order, and each file's rows with the lines on which an editor shows them."""
import bisect
import operator
import pathlib
import re
from collections.abc import Iterable, Iterator

BYTE_ORDER_MARK = b"\xef\xbb\xbf"
# A field to its end: a quoted one over closed pairs of quotes, or one without a quote in front. The flag of
# the second group is set where the closing quote is missing.
FIELD = re.compile(rb'"[^"]*(?:""[^"]*)*(?:"[^,\r\n]*|(\Z))|[^,\r\n]*')
QUOTED = re.compile(rb'"([^"]*(?:""[^"]*)*)"?(.*)', re.DOTALL)
LINE_END = re.compile(rb"\r\n|\r|\n")


COLUMNS = ["act", "kind", "subject", "name", "year", "value", "low", "high", "unit", "note"]
COLUMN_AT = {column: at for at, column in enumerate(COLUMNS)}
# The first name of the header, by the format of the file. All else in the header is equal.
FIRST_NAMES = {1: "act", 2: "act2"}
HEADERS = {version: [name, *COLUMNS[1:]] for version, name in FIRST_NAMES.items()}
# The format of what the tools give to be filled in.
OF_TEMPLATES = 2
# The columns that name a record, of each kind; of any other kind all that may.
COLUMNS_OF_KEY: dict[str, list[str]] = {
    "span": [], "activity": ["name", "year"], "factor": ["name", "year"], "line": ["name"],
    "bind": ["subject", "name"], "uncert": ["name"],
}
ANY_KEY = ["subject", "name", "year"]
# What takes the key of a record out of all fields of a row; that of the span, which is its kind, is no tuple.
KEY_OF = {kind: operator.itemgetter(COLUMN_AT["kind"], *(COLUMN_AT[column] for column in columns))
          for kind, columns in COLUMNS_OF_KEY.items() if columns}


# The files that spreadsheets keep, and text files that may hold rows; how a header or a row of an act begins.
SPREADSHEETS = {".xlsx", ".xlsm", ".xlsb", ".xls", ".ods", ".numbers"}
OTHER_TEXTS = {".txt", ".tsv", ".tab"}
BEGIN_OF_ROWS = re.compile(r"[\s\"]*(act2?|enter|correct|withdraw)\"?[,;\t|]", re.IGNORECASE)

# What names a record: its kind, and what it has in the columns of COLUMNS_OF_KEY.
Key = tuple[str, ...]


class FolderFault(Exception):
    """A folder that cannot be read as a workbook."""


class Row:
    """A record of a file: the line that it begins on, its bytes without the end of the line, and its fields.

    One with a figure or a target that is not the writer's is marked, and so is one that the tools added.
    """

    __slots__ = ("sheet", "line", "raw", "fields", "has_other_figure", "is_added", "_key")

    def __init__(self, sheet: "Sheet", line: int, raw: bytes) -> None:
        self.sheet, self.line, self.raw = sheet, line, raw
        self.has_other_figure, self.is_added = False, False
        # bytes that are no UTF-8 are kept as lone surrogates
        text = raw.decode("utf-8", "surrogateescape")
        self.fields = text.split(",") if '"' not in text else fields_of(raw)
        self._key: Key | None = None

    @property
    def place(self) -> str:
        """The file and the line."""
        return f"{self.sheet.name}:{self.line}"

    @property
    def key(self) -> Key:
        """The key of the record that the row speaks of, out of its fields as they are."""
        if self._key is None:
            kind = self.field("kind")
            if kind in KEY_OF and len(self.fields) == len(COLUMNS):
                self._key = KEY_OF[kind](self.fields)
            else:
                self._key = (kind, *[self.field(column) for column in COLUMNS_OF_KEY.get(kind, ANY_KEY)])
        return self._key

    def field(self, column: str) -> str:
        """The field of a column by its name, or nothing where the row is too short."""
        try:
            return self.fields[COLUMN_AT[column]]
        except IndexError:
            return ""

    def with_fields(self, **changed: str) -> "Row":
        """The same row with other fields, at the same place."""
        fields = list(self.fields)
        for column, text in changed.items():
            fields[COLUMN_AT[column]] = text
        made = Row(self.sheet, self.line, joined(fields))
        made.has_other_figure = self.has_other_figure
        return made


class Sheet:
    """A file of a folder: the name to show for it, its bytes and its rows, of which the first is the
    header; these rows as they are read without what is wrong with the file; and the format of its header.
    """

    def __init__(self, name: str, data: bytes) -> None:
        self.name, self.data = name, data
        self.rows = self.meant = split(self, data)
        self.version = version_of(self.rows[0].fields) if self.rows else 1

    def rows_above(self, line: int) -> Iterator[Row]:
        """The rows above a line up to the header, the nearest first."""
        for at in range(bisect.bisect_left(self.meant, line, key=lambda row: row.line) - 1, 0, -1):
            yield self.meant[at]

    def rows_below(self, line: int) -> Iterator[Row]:
        """The rows below a line, the nearest first."""
        for at in range(bisect.bisect_right(self.meant, line, key=lambda row: row.line), len(self.meant)):
            yield self.meant[at]


def version_of(header: Iterable[str]) -> int:
    """The format of a header: that whose first name it has, also with blanks or in capitals."""
    names = [name.strip().casefold() for name in header]
    return next((version for version, name in FIRST_NAMES.items() if version > 1 and name in names), 1)


def joined(fields: Iterable[str]) -> bytes:
    """Fields as a record of CSV."""
    return ",".join(map(quoted, fields)).encode("utf-8", "surrogateescape")


def quoted(field: str) -> str:
    """A field as CSV has it, in quotes where it holds a comma, a quote or the end of a line."""
    return '"' + field.replace('"', '""') + '"' if set(field) & set(',"\r\n') else field


def fields_of(raw: bytes) -> list[str]:
    """The fields of a record with quotes in it."""
    return [unquoted(field).decode("utf-8", "surrogateescape") for field in written_fields(raw)]


def written_fields(raw: bytes) -> list[bytes]:
    """The fields of a record with their quotes."""
    found, at = [], 0
    while True:
        end = end_of_field(raw, at)
        found.append(raw[at:end])
        if end == len(raw):
            return found
        at = end + 1


def end_of_field(raw: bytes, at: int) -> int:
    """Where the field of a record ends that begins at a place."""
    found = FIELD.match(raw, at)
    return found.end() if found else at


def unquoted(field: bytes) -> bytes:
    """A field without its quotes."""
    inner = QUOTED.fullmatch(field)
    return inner.group(1).replace(b'""', b'"') + inner.group(2) if inner else field


def is_closed_within(raw: bytes) -> bool:
    """Tells whether a text stands after the closing quote of a field of a record."""
    quoted = (QUOTED.fullmatch(field) for field in written_fields(raw))
    return any(found and found.group(2) for found in quoted)


def split(sheet: Sheet, data: bytes) -> list[Row]:
    """The rows of a file's bytes, by the ends of lines outside quotes. Empty lines are none."""
    data = data.removeprefix(BYTE_ORDER_MARK)
    if b'"' not in data:
        return [Row(sheet, at, raw) for at, raw in enumerate(data.splitlines(), 1) if raw]
    rows, at, line = [], 0, 1
    while at < len(data):
        end = end_of_record(data, at)
        raw = data[at:end]
        if raw:
            rows.append(Row(sheet, line, raw))
        after = LINE_END.match(data, end)
        line += len(LINE_END.findall(raw)) + 1
        at = after.end() if after else len(data)
    return rows


def end_of_record(data: bytes, at: int) -> int:
    """Where the record ends that begins at a place."""
    line_end = LINE_END.search(data, at)
    end = line_end.start() if line_end else len(data)
    if data.find(b'"', at, end) < 0:
        return end
    while True:
        end = end_of_field(data, at)
        if data[end:end + 1] != b",":
            return end
        at = end + 1


def open_quote(raw: bytes) -> int | None:
    """Where a field of a record begins with a quote that is never closed, or None."""
    at = 0
    while b'"' in raw:
        found = FIELD.match(raw, at)
        if found and found.group(1) is not None:
            return at
        end = end_of_field(raw, at)
        if end == len(raw):
            return None
        at = end + 1
    return None


def natural(name: str) -> list[tuple[int, int, str]]:
    """A key that sorts 2 before 10."""
    return [(0, int(part), "") if part.isdecimal() else (1, 0, part) for part in re.split(r"([0-9]+)", name)]


def listed_in(order: pathlib.Path, folder: pathlib.Path) -> list[str]:
    """The names that ORDER.txt lists, one on a line. Empty lines and lines that begin with # name none."""
    try:
        text = order.read_text(encoding="utf-8-sig")
    except UnicodeDecodeError as error:
        raise FolderFault(f"{order} is not UTF-8") from error
    names = [line.strip() for line in text.splitlines()]
    names = [name for name in names if name and not name.startswith("#")]
    for name in names:
        if not (folder / name).is_file():
            raise FolderFault(f"{order}: there is no file {name} in this folder")
        if names.count(name) > 1:
            raise FolderFault(f"{order}: the file {name} stands there twice")
    return names


def names_in(folder: pathlib.Path) -> tuple[list[str], list[str]]:
    """The names of a folder's files in their order, and those that ORDER.txt leaves out."""
    if not folder.is_dir():
        raise FolderFault(f"{folder} is no folder")
    found = sorted((path.name for path in folder.iterdir() if path.suffix.lower() == ".csv"), key=natural)
    order = folder / "ORDER.txt"
    if order.exists() and not order.is_file():
        raise FolderFault(f"{order} is no file")
    if not order.exists():
        names, left = found, []
    else:
        names = listed_in(order, folder)
        left = [name for name in found if name not in names]
    if not names:
        raise FolderFault(f"{folder} has no CSV files")
    return names, left


def has_rows(path: pathlib.Path) -> bool:
    """Tells whether a text file begins with a header or a row of an act."""
    try:
        with path.open("rb") as file:
            return BEGIN_OF_ROWS.match(file.read(200).decode("utf-8-sig", "replace")) is not None
    except OSError:
        return False


def unread_in(folder: pathlib.Path, named: set[pathlib.Path]) -> list[tuple[str, str]]:
    """What a folder has that is most likely meant and that is not read, with what to do: the files of
    spreadsheets that no CSV file is saved of, the rows of other text files, and the folders below with CSV
    files of rows that are not named themselves.
    """
    found = []
    for path in sorted(folder.iterdir(), key=lambda path: natural(path.name)):
        ending = path.suffix.lower()
        if path.name.startswith((".", "~")) or ending == ".csv":
            continue
        if path.is_dir() and path.resolve() not in named:
            count = sum(below.suffix.lower() == ".csv" and has_rows(below) for below in files_below(path))
            files, them = ("1 CSV file", "the file") if count == 1 else (f"{count} CSV files", "the files")
            if count:
                what = f"this folder has {files}, and is not read"
                found.append((path.name, f"{what}; move {them} up, or give the folder to the command too"))
        elif ending in SPREADSHEETS and not path.with_suffix(".csv").exists():
            what = "this file of a spreadsheet is not read; read it with ./workbook from-sheets or import"
            found.append((path.name, f"{what}, or save its sheets as CSV UTF-8"))
        elif ending in OTHER_TEXTS and has_rows(path):
            what = "this file has rows, and is not read; save it as CSV UTF-8 with commas"
            found.append((path.name, f"{what}, under a name that ends with .csv"))
    return found


def files_below(folder: pathlib.Path) -> list[pathlib.Path]:
    """The files of a folder, or none where it cannot be read."""
    try:
        return list(folder.iterdir())
    except OSError:
        return []


def shown_in(folder: pathlib.Path, name: str, is_only: bool) -> str:
    """The name to show for a file of a folder, which is the only one or one of several."""
    return name if is_only else str(folder / name)


def read_folders(paths: list[str]) -> tuple[list[Sheet], list[tuple[str, str]]]:
    """The files of folders, in their order, and the names of what is left out, each with the reason."""
    sheets, left = [], []
    named = {pathlib.Path(path).resolve() for path in paths}
    for path in map(pathlib.Path, paths):
        names, others = names_in(path)
        is_only = len(paths) == 1
        unlisted = f"{shown_in(path, 'ORDER.txt', is_only)} does not list this file, and it is left out"
        left += [(shown_in(path, name, is_only), unlisted) for name in others]
        left += [(shown_in(path, name, is_only), why) for name, why in unread_in(path, named)]
        for name in names:
            if not (path / name).is_file():
                raise FolderFault(f"{path / name} is no file")
            try:
                sheets.append(Sheet(shown_in(path, name, is_only), (path / name).read_bytes()))
            except OSError as error:
                raise FolderFault(f"{path / name} cannot be read: {error.strerror}") from error
    return sheets, left
