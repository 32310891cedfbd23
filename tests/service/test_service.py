"""The built program as a service: whole replies against bytes that are written by hand here, or of
tests/country.
"""
import contextlib
import http.client
import io
import os
import pathlib
import re
import resource
import shlex
import shutil
import signal
import socket
import sqlite3
import struct
import subprocess
import sys
import tempfile
import threading
import time
import typing
import unittest

from tests.limits import limit
from tests.service.serving import (GAS, HEADER, HOST, PROGRAM, SECONDS, TOP, Service, free_port, get, post,
                                   read_to_the_end, reply, table)
from tests.workbook.test_country import files

CELLS = b"""code,category,equation,gas,unit,value,low,high
ELEC.GAS,1A1a,Q10,CO2,Gg,56.100,54.300,58.300
"""
NOT_FOUND = reply("404 Not Found", "not found")
BAD = reply("400 Bad Request", "bad request")
TOO_LARGE = reply("431 Request Header Fields Too Large", "head too large")
METHOD = reply("405 Method Not Allowed", "method")
LENGTH = reply("411 Length Required", "length required")
CODED = reply("415 Unsupported Media Type", "coded body")
TOO_LONG = reply("413 Payload Too Large", "refused 3 BodyTooLong")
NO_TABLE = reply("404 Not Found", "no table")
NO_MEMORY = reply("507 Insufficient Storage", "memory")
ACCEPTED, REPEATED = reply("201 Created", "accepted 1"), reply("200 OK", "repeated 1")
LONGEST, HEAD, FIELDS = limit("body"), limit("head"), limit("fields")
# How many seconds all reads and writes of a connection wait for its client.
DEADLINE = 120
# What makes `close` reset a connection.
RESET = struct.pack("ii", 1, 0)


def refused(text: str) -> bytes:
    """The reply to a submission that breaks a rule other than that on a kept id."""
    return reply("422 Unprocessable Entity", f"refused {text}")


class Exchanges(unittest.TestCase):
    maxDiff = None

    def exchanged(self, *pairs: tuple[bytes, bytes]) -> None:
        """Sends each request to one program, and compares each whole reply with the bytes due."""
        with Service(len(pairs)) as service:
            for request, due in pairs:
                self.assertEqual(service.exchange(request), due, request[:200])
            self.assertEqual(service.status(), 0)

    def test_one_line_from_request_to_table(self) -> None:
        self.exchanged(
            (b"GET /nothing HTTP/1.1\r\n\r\n",
             b"HTTP/1.1 404 Not Found\r\ncontent-type: application/json\r\ncontent-length: 21\r\n"
             b'connection: close\r\n\r\n{"reply":"not found"}'),
            (get("cells", 1990), NO_TABLE),
            (post("a", GAS),
             b"HTTP/1.1 201 Created\r\ncontent-type: application/json\r\ncontent-length: 22\r\n"
             b'connection: close\r\n\r\n{"reply":"accepted 1"}'),
            (b"GET /tables/cells/1990?x=1 HTTP/1.0\r\n\r\n", table(CELLS)),
            (get("cells", 1991, "Host: localhost"), table(CELLS.split(b"Gg")[0] + b"Gg,NE,NE,NE\n")),
            (post("a", GAS), REPEATED),
            (post("a", GAS.replace(b"1000", b"1001")), reply("409 Conflict", "refused 2 IdReused 1")),
            (post("b", GAS), refused("9 Exists row 1")),
            (get("cells", 1989), NO_TABLE), (get("wrong", 1990), NO_TABLE), (get("cells", "90"), NO_TABLE))

    def test_rules_that_refuse(self) -> None:
        heard = b"enter,activity,,A,1990,%b,,,t,\n"
        self.exchanged(
            (post("a+b", GAS), refused("1 BadId")), (post("a" * (limit("id") + 1), GAS), refused("1 BadId")),
            (post("empty", b""), refused("4 BadShape row 0")),
            (post("short", HEADER + b"enter,activity,,A,1990,1,,,t\n"), refused("4 BadShape row 1")),
            (post("unit", HEADER + b"enter,activity,,A,1990,1,,,T,\n"),
             refused("5 UnknownWord row 1 column unit")),
            (post("number", HEADER + heard % b"1e3"), refused("6 BadNumber row 1 column value")),
            (post("bounds", HEADER + b"enter,activity,,A,1990,1,2,3,t,\n"),
             refused("7 BoundsDisorder row 1")),
            (post("years", HEADER + b"enter,activity,,A,1990,1,,,yr,\n"), refused("8 WrongUnit row 1")),
            (post("absent", HEADER + b"withdraw,activity,,A,1990,,,,,\n"), refused("9 Absent row 1")),
            (post("binding", HEADER + b"enter,line,1A1a,L,,Q10,,,,\n"), refused("10 BadBinding L EF")),
            (post("span", HEADER + b"enter,span,,,1900,%d,1900,,,\n" % (1901 + limit("span"))),
             refused("11 TooMany span")),
            (post("ring", HEADER + b"enter,span,,,1990,1990,1990,,,\nenter,line,RA,L,,Q83,,,,\n"
                  b"enter,bind,L,G,,line,L,,,\nenter,bind,L,L,,key,NO,,,\n"), refused("12 Cycle L")),
            (post("great", GAS.replace(b",1000,", b",99999999999999,").replace(b"56100,54300,58300", b"2,,")),
             refused("13 Overflow line:ELEC.GAS:1990")),
            (post("great", HEADER + heard % b"1"), ACCEPTED))

    def test_heads_that_are_refused(self) -> None:
        chunked = b"POST /submissions/a HTTP/1.1\r\nTransfer-Encoding: chunked\r\n\r\n5\r\nabcde\r\n0\r\n\r\n"
        fields = [f"X-{number}: y" for number in range(FIELDS + 1)]
        self.exchanged(
            (b"DELETE /tables/cells/1990 HTTP/1.1\r\n\r\n", METHOD),
            (b"GET /submissions/a HTTP/1.1\r\n\r\n", METHOD),
            (b"POST /submissions/ HTTP/1.1\r\nContent-Length: 0\r\n\r\n", NOT_FOUND),
            (b"GET /tables/cells HTTP/1.1\r\n\r\n", NOT_FOUND),
            (chunked, LENGTH), (b"POST /submissions/a HTTP/1.1\r\n\r\n", LENGTH),
            (post("a", GAS, "Transfer-Encoding: chunked"), LENGTH),
            (post("a", GAS, "Transfer-Encoding: chunked", length="many"), LENGTH),
            (post("a", GAS, length="many"), BAD), (post("a", GAS, length="12345678901"), BAD),
            (post("a", GAS, "Content-Length: 0291"), BAD), (post("a", GAS, "Content-Length: 290"), BAD),
            (post("a", GAS, length=""), BAD), (get("cells", 1990, "Content-Length: many"), BAD),
            (get("cells", 1990, "Content-Length: 1", "Content-Length: 01"), BAD),
            (post("a", GAS, "Content-Encoding: gzip"), CODED),
            (post("a", b"", length=LONGEST + 1), TOO_LONG),
            (post("a", b"", "Content-Encoding: gzip", length=LONGEST + 1), CODED),
            (post("a", GAS, "Content-Encoding: gzip", length="many"), BAD),
            (post("a+b", b"", length=LONGEST + 1), TOO_LONG),
            (b"DELETE /nothing HTTP/1.1\r\n\r\n", NOT_FOUND), (b"POST /nothing HTTP/1.1\r\n\r\n", NOT_FOUND),
            (b"POST /tables/cells/1990 HTTP/1.1\r\n\r\n", METHOD),
            (b"POST /tables/cells/1990 HTTP/1.1\r\nContent-Length: many\r\n\r\n", METHOD),
            (get("cells/none", 1990, *fields), TOO_LARGE),
            (b"\r\n\x01\r\n", BAD), (b"GET /\xff HTTP/1.1\r\n\r\n", BAD), (b"GET / HTTP/2.0\r\n\r\n", BAD),
            (post("\xff", GAS), BAD), (b"GET /tables/cells/\xc3\x28 HTTP/1.1\r\n\r\n", BAD),
            (get("cells", 1990, *fields), TOO_LARGE), (get("cells", 1990, *fields)[:-2], TOO_LARGE),
            (b"GET / HTTP/1.1\r\nX: " + b"y" * (HEAD - 19), TOO_LARGE))

    def test_the_longest_heads_and_those_that_are_longer(self) -> None:
        fields = [f"X-{number}: y" for number in range(FIELDS)]
        head = get("cells", 1990, "X: ")
        longest, longer = (head[:-4] + b"y" * (size - len(head)) + head[-4:] for size in (HEAD, HEAD + 1))
        self.assertEqual((len(longest), len(longer)), (HEAD, HEAD + 1))
        posted = post("a", GAS, "X: ")
        at = posted.index(b"X: ") + 3
        posted = posted[:at] + b"y" * (HEAD + len(GAS) - len(posted)) + posted[at:]
        self.assertEqual(posted.index(GAS), HEAD)
        self.exchanged((posted, ACCEPTED), (longest, table(CELLS)), (longer, TOO_LARGE),
                       (get("cells", 1990, *fields), table(CELLS)), (get("cells", 1990, *fields)[:-2], b""),
                       (get("cells", 1990, *fields, "X: y"), TOO_LARGE))

    def test_heads_that_are_taken(self) -> None:
        self.exchanged(
            (post("a", GAS, "content-encoding: Identity", "Expect: 100-continue"), ACCEPTED),
            (post("a", GAS, "CONTENT-LENGTH: 291"), REPEATED),
            (post("a?of=me", GAS + b"and what follows", version="1.0", length=291), REPEATED),
            (get("cells", 1990, "Transfer-Encoding: chunked"), table(CELLS)),
            (get("cells", 1990, "Content-Encoding: gzip"), table(CELLS)),
            (get("cells", 1990, f"Content-Length: {LONGEST + 1}"), table(CELLS)))

    def test_a_body_of_four_mebibytes(self) -> None:
        note = b"n" * (LONGEST - len(HEADER) - len(b"enter,activity,,A,1990,1,,,t,\n"))
        body = HEADER + b"enter,activity,,A,1990,1,,,t,%b\n" % note
        self.exchanged((post("long", body), ACCEPTED),
                       (post("long", body), REPEATED))


class WholeReply(http.client.HTTPResponse):
    """A reply that a client of the standard library reads, and all of its bytes."""

    def __init__(self, link: socket.socket, **given: typing.Any) -> None:
        super().__init__(link, **given)
        with self.fp as came:
            self.whole = came.read()
        self.fp = typing.cast(io.BufferedReader, io.BytesIO(self.whole))


class Country(unittest.TestCase):
    maxDiff = None

    def ask(self, service: Service, method: str, path: str, body: bytes | None = None) -> tuple[bytes, bytes]:
        """The bytes of a reply, and the body that a client of the standard library reads."""
        link = http.client.HTTPConnection(HOST, service.port, timeout=SECONDS)
        link.response_class = WholeReply
        link.request(method, path, body)
        answer = link.getresponse()
        link.close()
        assert isinstance(answer, WholeReply)
        return answer.whole, answer.read()

    def test_files_of_the_country_and_all_tables(self) -> None:
        bodies, names = files(), sorted((TOP / "tests/country").glob("*.csv"))
        self.assertEqual(len(names), 8)
        with Service(len(bodies) + len(names)) as service:
            for number, path in enumerate(bodies, 1):
                answer = self.ask(service, "POST", f"/submissions/{path.stem}", path.read_bytes())
                due = reply("201 Created", f"accepted {number}"), b'{"reply":"accepted %d"}' % number
                self.assertEqual(answer, due, path.name)
            for path in names:
                answer = self.ask(service, "GET", "/tables/" + path.stem.replace("-", "/"))
                self.assertEqual(answer, (table(path.read_bytes()), path.read_bytes()), path.name)
            self.assertEqual(service.status(), 0)


@unittest.skipUnless(shutil.which("curl"), "there is no curl")
class Curl(unittest.TestCase):
    maxDiff = None

    def test_the_two_lines_of_the_page(self) -> None:
        lines = re.findall("^ *(curl .*)$", (TOP / "docs/SERVICE.md").read_text("utf-8"), re.MULTILINE)
        self.assertEqual(len(lines), 2)
        with Service(2) as service:
            self.assertEqual(self.printed(lines[0], service), b'{"reply":"accepted 1"}')
            self.assertEqual(self.printed(lines[1], service), summary_without_lines())
            self.assertEqual(service.status(), 0)

    def printed(self, line: str, service: Service) -> bytes:
        """What a command of a page prints at the top of the repository, with the port of this program."""
        words = shlex.split(line.replace(":8000/", f":{service.port}/"))
        ran = subprocess.run([words[0], "--disable", "--noproxy", "*", "--silent", *words[1:]], cwd=TOP,
                             stdin=subprocess.DEVNULL, stdout=subprocess.PIPE, timeout=SECONDS, check=False)
        self.assertEqual(ran.returncode, 0, line)
        return ran.stdout


def summary_without_lines() -> bytes:
    """The summary of a year in which nothing is emitted: the categories of tests/country, with zeros."""
    header, *rows = (TOP / "tests/country/summary-2020.csv").read_bytes().splitlines()
    zeros = [b"%b,0.000,0.000,0.000" % row.split(b",")[0] for row in rows]
    return b"\n".join([header, *zeros, b""])


class Links(unittest.TestCase):
    def test_each_proper_prefix_of_a_request_is_none(self) -> None:
        request = post("a", GAS)
        with Service(len(request) + 2) as service:
            for cut in range(len(request)):
                self.assertEqual(service.exchange(request[:cut]), b"", cut)
            self.assertEqual(service.exchange(request), ACCEPTED)
            self.assertEqual(service.exchange(request), REPEATED)
            self.assertEqual(service.status(), 0)

    def test_a_request_that_comes_in_pieces(self) -> None:
        request = post("a", GAS)
        with Service(1) as service, service.connect() as link:
            link.setsockopt(socket.IPPROTO_TCP, socket.TCP_NODELAY, 1)
            for at in range(len(request)):
                link.sendall(request[at:at + 1])
            self.assertEqual(read_to_the_end(link), ACCEPTED)
            self.assertEqual(service.status(), 0)

    def test_a_client_that_breaks_off(self) -> None:
        request = post("a", GAS)
        with Service(3) as service:
            for part in (request[:100], request):
                with service.connect() as link:
                    link.sendall(part)
                    link.setsockopt(socket.SOL_SOCKET, socket.SO_LINGER, RESET)
            again = service.exchange(request)
            self.assertIn(again, (ACCEPTED, REPEATED))
            self.assertEqual(service.status(), 0)

    def test_a_client_that_goes_on_sending_behind_its_reply(self) -> None:
        with Service(2) as service, service.connect() as link:
            link.sendall(post("a", GAS))
            self.assertEqual(read_to_the_end(link), ACCEPTED)
            # It sends as long as the program takes it, so the next client waits until that ends.
            sender = threading.Thread(target=send_slowly, args=[link], daemon=True)
            sender.start()
            self.assertEqual(service.exchange(post("a", GAS)), REPEATED)
            sender.join(SECONDS)
            self.assertFalse(sender.is_alive())
            self.assertEqual(service.status(), 0)

    @unittest.skipUnless(os.environ.get("GHG_SLOW"), "takes two minutes; set GHG_SLOW=1")
    def test_a_client_that_sends_a_byte_now_and_then(self) -> None:
        with Service(2) as service, service.connect() as link, service.connect() as other:
            other.sendall(post("a", GAS))
            other.settimeout(DEADLINE + SECONDS)
            began = time.monotonic()
            threading.Thread(target=send_slowly, args=[link, 10], daemon=True).start()
            self.assertEqual(read_to_the_end(other), ACCEPTED)
            self.assertGreater(time.monotonic() - began, DEADLINE - 1)
            self.assertEqual(service.status(), 0)

    @unittest.skipUnless(sys.platform == "linux", "127.0.0.2 may be no address of this machine")
    def test_no_other_address_of_loopback_is_served(self) -> None:
        with Service(1) as service:
            # A program that listened at all addresses would take this connection.
            with self.assertRaises(ConnectionRefusedError):
                socket.create_connection(("127.0.0.2", service.port), timeout=SECONDS).close()
            self.assertEqual(service.exchange(post("a", GAS)), ACCEPTED)
            self.assertEqual(service.status(), 0)

    def test_a_link_that_fails_before_it_is_read(self) -> None:
        with Service(2) as service:
            with service.connect() as link:
                link.setsockopt(socket.SOL_SOCKET, socket.SO_LINGER, RESET)
            self.assertEqual(service.exchange(post("a", GAS)), ACCEPTED)
            self.assertEqual(service.status(), 0)

    @unittest.skipUnless(hasattr(resource, "prlimit"), "no limit can be set from outside")
    def test_a_shortage_of_descriptors_passes(self) -> None:
        with Service(3) as service:
            self.assertEqual(service.exchange(post("a", GAS)), ACCEPTED)
            process = service.process.pid
            before, most = resource.prlimit(process, resource.RLIMIT_NOFILE)
            resource.prlimit(process, resource.RLIMIT_NOFILE, (1, most))
            # The program may have asked for one more link before its limit was set.
            with service.connect() as first, service.connect() as second:
                for link in (first, second):
                    link.sendall(post("a", GAS))
                    link.shutdown(socket.SHUT_WR)
                second.settimeout(1)
                with self.assertRaises(TimeoutError):
                    second.recv(1)
                resource.prlimit(process, resource.RLIMIT_NOFILE, (before, most))
                second.settimeout(SECONDS)
                self.assertEqual([read_to_the_end(first), read_to_the_end(second)], [REPEATED, REPEATED])
            self.assertEqual(service.status(), 0)

    def test_a_client_that_closes_while_its_reply_is_written(self) -> None:
        rows = [HEADER, b"enter,span,,,1990,1990,1990,,,\nenter,activity,,A,1990,1,,,TJ,\n"
                b"enter,factor,,F,1990,1000,,,kg/TJ,\n"]
        names = [b"L%023d" % number for number in range(limit("lines"))]
        rows += [b"enter,line,1A1a,%b,,Q10,,,,\nenter,bind,%b,FC,,activity,A,,,\n"
                 b"enter,bind,%b,EF,,factor,F,,,\n" % (name, name, name) for name in names]
        lines = [b"%b,1A1a,Q10,CO2,Gg,0.001,0.001,0.001\n" % name for name in names]
        due = CELLS[:CELLS.index(b"\n") + 1] + b"".join(lines)
        with Service(3) as service:
            self.assertEqual(service.exchange(post("a", b"".join(rows))), ACCEPTED)
            with socket.socket() as link:
                # Small segments and a small buffer: most of the reply has to wait for the client.
                link.setsockopt(socket.SOL_SOCKET, socket.SO_RCVBUF, 4096)
                link.setsockopt(socket.IPPROTO_TCP, socket.TCP_MAXSEG, 536)
                link.connect((HOST, service.port))
                link.sendall(get("cells", 1990))
                self.assertEqual(link.recv(8), b"HTTP/1.1")
                with service.connect() as other:
                    other.sendall(get("cells", 1990))
                    other.settimeout(0.2)
                    with self.assertRaises(TimeoutError):
                        other.recv(1)
                    link.setsockopt(socket.SOL_SOCKET, socket.SO_LINGER, RESET)
                    link.close()
                    other.settimeout(SECONDS)
                    self.assertEqual(read_to_the_end(other), table(due))
            self.assertEqual(service.status(), 0)


def send_slowly(link: socket.socket, pause: float = 0.01) -> None:
    """Sends byte after byte until the other side refuses one."""
    with contextlib.suppress(OSError):
        while True:
            link.sendall(b"x")
            time.sleep(pause)


def without_room() -> None:
    """Lets a program write files of at most 1 MiB, and go on where one would be longer."""
    signal.signal(signal.SIGXFSZ, signal.SIG_IGN)
    resource.setrlimit(resource.RLIMIT_FSIZE, (1 << 20, 1 << 20))


class Stored(unittest.TestCase):
    def test_what_was_accepted_is_there_in_the_next_run(self) -> None:
        with tempfile.TemporaryDirectory() as room:
            with Service(1, "--store", "book.db", folder=room) as service:
                self.assertEqual(service.exchange(post("a", GAS)), ACCEPTED)
                self.assertEqual(service.status(), 0)
            with Service(2, "--store=book.db", folder=room) as service:
                self.assertEqual(service.exchange(get("cells", 1990)), table(CELLS))
                self.assertEqual(service.exchange(post("a", GAS)), REPEATED)
                self.assertEqual(service.status(), 0)

    def test_a_store_that_fails(self) -> None:
        body = HEADER + b"enter,activity,,A,1990,1,,,t,%b\n" % (b"n" * (3 << 20))
        with tempfile.TemporaryDirectory() as room:
            with Service(4, "--store", "book.db", folder=room, before=without_room) as service:
                self.assertEqual(service.exchange(post("long", body)),
                                 reply("503 Service Unavailable", "keeper fault"))
                self.assertEqual(service.exchange(get("cells", 1990)), NO_TABLE)
                self.assertEqual(service.exchange(post("a", GAS)), ACCEPTED)
                self.assertEqual(service.exchange(get("cells", 1990)), table(CELLS))
                self.assertEqual(service.status(), 0)


@unittest.skipUnless(sys.platform == "linux", "the room of a process that runs is not limited so elsewhere")
class Memory(unittest.TestCase):
    def limit(self, process: subprocess.Popen[bytes], room: int | None) -> None:
        """Lets a process take so many bytes more, or as many as it asks for."""
        pages = int(pathlib.Path(f"/proc/{process.pid}/statm").read_text(encoding="ascii").split()[0])
        most = resource.RLIM_INFINITY if room is None else pages * resource.getpagesize() + room
        resource.prlimit(process.pid, resource.RLIMIT_AS, (most, resource.RLIM_INFINITY))

    def test_want_of_memory_and_the_same_submission_again(self) -> None:
        body = HEADER + b"".join(b"enter,activity,,A%05d,1990,1,,,TJ,\n" % n for n in range(50_000))
        with Service(3) as service:
            # There is room for the body, and none for its rows.
            self.limit(service.process, 8 << 20)
            self.assertEqual(service.exchange(post("many", body)), NO_MEMORY)
            self.assertEqual(service.exchange(get("cells", 1990)), NO_TABLE)
            self.limit(service.process, None)
            self.assertEqual(service.exchange(post("many", body)), ACCEPTED)
            self.assertEqual(service.status(), 0)


class Ends(unittest.TestCase):
    def ended(self, *words: str, folder: pathlib.Path | str | None = None) -> tuple[int, bytes]:
        """What the program writes, and its status."""
        ran = subprocess.run([PROGRAM, *words], stdin=subprocess.DEVNULL, capture_output=True, cwd=folder,
                             timeout=SECONDS, check=False)
        return ran.returncode, ran.stdout

    def test_words_that_are_no_command(self) -> None:
        lines = ("", "--port 8000", "--connections 2", "--port 0 --connections 1",
                 "--port 65536 --connections 1", "--port 8000 --connections 0",
                 "--port 8000 --connections 1000001", "--port 8000 --port 8001",
                 "--port 8000 --connections 1 --store .x", "--help")
        for words in map(str.split, lines):
            self.assertEqual(self.ended("serve", *words), (2, b"bad command line\n"), words)

    def test_a_port_that_another_has(self) -> None:
        with socket.socket() as link:
            link.bind((HOST, 0))
            link.listen()
            port = str(link.getsockname()[1])
            self.assertEqual(self.ended("serve", "--port", port, "--connections", "1"), (7, b""))

    def test_a_store_that_is_none(self) -> None:
        with tempfile.TemporaryDirectory() as room:
            words = ["serve", "--port", "18742", "--connections", "1", "--store", "book.db"]
            with open(f"{room}/book.db", "w", encoding="ascii") as file:
                file.write("act,kind,subject,name,year,value,low,high,unit,note\n" * 100)
            self.assertEqual(self.ended(*words, folder=room), (6, b""))

    def test_a_kept_row_that_is_refused(self) -> None:
        with tempfile.TemporaryDirectory() as room:
            with contextlib.closing(sqlite3.connect(f"{room}/book.db")) as store, store:
                store.execute("CREATE TABLE accepted(seq INTEGER PRIMARY KEY, id TEXT UNIQUE NOT NULL, "
                              "body BLOB NOT NULL)")
                store.executemany("INSERT INTO accepted VALUES (?, ?, ?)", [(1, "a", GAS), (2, "b", b"")])
            words = ["serve", "--port", str(free_port()), "--connections", "1", "--store", "book.db"]
            self.assertEqual(self.ended(*words, folder=room), (9, b"kept row 2 refused 4 BadShape row 0\n"))


if __name__ == "__main__":
    unittest.main()
