"""The command `send`: submits files in their order to a running service.

The id of each is made of its name and its content, so that a file that is sent again acts once.
"""
from __future__ import annotations

import argparse
import hashlib
import pathlib
import re
import sys
import time

from tools import headers
from tools.check import Check
from tools.faults import Fault, counted, in_order
from tools.program import Program, ProgramFailed, Reply, found_program, read_reply
from tools.service import NOT_REACHED, Answer, Service, ServiceFault
from tools.sheets import Sheet, read_folders
from tools.tables import said_of
from tools.vocabulary import limit

# The digits at the end of an id, which tell bodies apart.
DIGITS = 12
# Where a submission has to be sent again, that is done after so many seconds.
PAUSES = (1, 2, 4, 8, 16)
ACCEPTED, REPEATED, NO_MEMORY = 201, 200, 507
KEEPER_FAULT = Answer(503, "keeper fault")
ID_REUSED, TOO_LONG, REFUSED = 409, 413, 422


class SendAgain(ServiceFault):
    """A submission of which nobody knows whether it acted, whose store failed, or that did not reach it."""


def run(arguments: argparse.Namespace) -> int:
    """Sends the files until one is refused, and answers the status."""
    service = Service(arguments.url)
    sheets, _ = read_folders(arguments.folders)
    faults = [fault for sheet in sheets for fault in faults_of(sheet)]
    if faults:
        print("\n".join(map(str, faults)))
        print(f"./workbook: {counted(len(faults), 'fault')}, and nothing is sent", file=sys.stderr)
        return 1
    counts = {ACCEPTED: 0, REPEATED: 0}
    for number, sheet in enumerate(sheets):
        answer = sent(service, sheet)
        if answer.status not in counts:
            explain(arguments, sheets[:number + 1], read_reply(answer.text))
            left = len(sheets) - number - 1
            behind = f", and {counted(left, 'file')} behind it not sent" if left else ""
            print(f"./workbook: {sheet.name} is refused{behind}; mend it, and send again", file=sys.stderr)
            return 1
        counts[answer.status] += 1
        print(f"{sheet.name}: {answer.text} as {id_of(sheet)}")
    print(f"{counted(len(sheets), 'file')}: {counts[ACCEPTED]} accepted, {counts[REPEATED]} in force before")
    return 0


def faults_of(sheet: Sheet) -> list[Fault]:
    """What is told before anything is sent: quotes that take in further rows, which no rule names, and a body
    that is too long, whose reply a service may cut off.
    """
    found: list[Fault] = list(headers.close_quotes(sheet)[0])
    if len(sheet.data) > int(limit("body").replace(",", "")):
        cause = f"{len(sheet.data):,} bytes where {limit('body')} are the most; split the file"
        found.append(Fault(sheet, 1, "", None, cause))
    return found


def id_of(sheet: Sheet) -> str:
    """The id of a file: its name without its ending, and the first digits of the hash of its content."""
    name = re.sub(r"[^A-Za-z0-9._-]+", "-", pathlib.PurePath(sheet.name).stem)
    digits = hashlib.sha256(sheet.data).hexdigest()[:DIGITS]
    return f"{name[:int(limit('id')) - DIGITS - 1]}-{digits}"


def sent(service: Service, sheet: Sheet) -> Answer:
    """The answer to a file: accepted, repeated or refused. It is sent again after a pause if the store failed,
    the service was not reached or no whole reply came; it acts once.
    """
    for pause in PAUSES:
        try:
            return sent_once(service, sheet)
        except SendAgain as again:
            print(f"{sheet.name}: {again}; it is sent again in {pause} s", file=sys.stderr)
            time.sleep(pause)
    return sent_once(service, sheet)


def sent_once(service: Service, sheet: Sheet) -> Answer:
    """The answer to a file that is sent."""
    try:
        answer = service.ask("POST", f"/submissions/{id_of(sheet)}", sheet.data)
    except ConnectionRefusedError as error:
        raise service.fault(error) from error
    except (TimeoutError, ConnectionError) as error:
        raise SendAgain(str(service.fault(error))) from error
    except OSError as error:
        raise service.fault(error) from error
    if answer == KEEPER_FAULT:
        raise SendAgain(f"{service.shown} answers 503 {answer.text}: its store failed, look at its disk")
    if answer.status in NOT_REACHED:
        raise SendAgain(str(service.other(answer)))
    return judged(service, sheet, answer)


def judged(service: Service, sheet: Sheet, answer: Answer) -> Answer:
    """An answer that says whether a file is in force. Any other ends the command."""
    if answer.status in (ACCEPTED, REPEATED) and re.fullmatch(r"(accepted|repeated) \d+", answer.text):
        return answer
    if answer.status in (ID_REUSED, TOO_LONG, REFUSED) and answer.text.startswith("refused "):
        return answer
    if answer.status == NO_MEMORY:
        what = "out of memory: give the program more, and send again"
        raise ServiceFault(f"{sheet.name}: {service.shown} answers 507 {answer.text}; {what}")
    raise service.other(answer)


def explain(arguments: argparse.Namespace, sheets: list[Sheet], reply: Reply) -> None:
    """Prints why the last of these files is refused, as `check` tells it of the files; else the reply itself,
    where something that others have submitted makes the fault.
    """
    last = sheets[-1]
    try:
        with Program(found_program(arguments.program)) as program:
            check = Check(program, sheets)
            check.run()
    except ProgramFailed as error:
        print(f"{said_of(last, reply)} ({error})")
        return
    faults = [fault for fault in in_order(check.faults, sheets) if fault.sheet is last]
    for fault in faults:
        print(fault)
    if not faults:
        print(f"{said_of(last, reply)}; {said_of_others(reply)}")


def said_of_others(reply: Reply) -> str:
    """What to do where these files alone have no fault."""
    if reply.text.split()[2] == "Exists":
        return ("an earlier state of this file, or others, have entered this row; undo the change, and write "
                "rows with correct into a file of their own")
    return "these files alone have no such fault: look at what others have sent"
