#!/usr/bin/env python3
"""The cases of the test program `cases`, and what it must print, by an independent model.

    documents.py FOLDER [COMMITTED_STDOUT]
        writes FOLDER/stdin, the cases, and FOLDER/stdout, what must be printed for them; and
        FOLDER/pairtable, what the program `pairtable` must print.
    documents.py --folders COUNT FOLDER
        writes about COUNT random jobs of the program and those at the limits, each as a folder
        with schema.tab, events and expected.
    documents.py --stored COUNT FOLDER
        writes the writer's files by hand and about COUNT random ones, each as a folder with stored
        and, if it is written, written; else with refused, the line of its number.
    documents.py --expected COUNT FOLDER
        writes about COUNT random jobs of the program `whatnext`, those with known texts and those
        at the limits, each as a folder with schema.tab, events and expected.
    documents.py --confirm SCHEMA PRINTED
        does PRINTED hold the right text for a schema refused with 9?

A case in stdin is a letter, three lengths of two bytes, low byte first (a buffer's and those of
two parts), and the two parts; seven bytes 00 end the cases. In stdout each case has a line, a job
(J, X) the program's text and a line `--`; at the end a line `end`. The letters: S a schema file,
C a list of calls, E an event file, J a whole job of the program, V a schema value made up, P a pair
of states, Q a set of states, W a schema file to be written without its unused types, N an event
file and what would have been taken where it stops, X a whole job of the program `whatnext`. In a
case N the first length is that of puts, which make a schema value up and stand before the events.

Cases are made of files as they were judged until request 06, without 24; the answer to each is the
reader's, with 24. Those that get 24 come once more, as listing/renewed.py says.

How the model decides. It lists words and typed trees from document 000's definition, as
listing/meaning.py says: whether a type bears a tree, is reached, is used, or has two that compete
in it, and whether roots compete; whether a valid document begins with some events is found by typing them and
completing the typed beginning, as listing/reading.py says. Elements are of two kinds there, opened
plainly and as nil. What a reading holds, and what made-up values answer, is said by document 01's
words on such values, in listing/value.py; where both apply both are taken and must agree. Every
number of document 01 stands in listing/tables.py. Beside that the valid documents of random schemas
are listed up to some size and compared (listing/listed.py), and for each competition, of roots too,
two documents of demand 3 are built and looked at, for each kind that the two types share, and all
shorter words are listed, if there are not too many. Of content written as an expression the words
are listed too, and the automaton is made from them by the request's wording
(listing/expression.py). What the writer makes of a file is said command by command in
listing/reduce.py, and the listed documents of both files are compared. What would have been taken
where an event file stops is asked event by event, as listing/expected.py says.

The schema fixes A and n of a witness; J, K and w are the program's choice, w among the shortest
words. Where roots compete A is 255 and n is 0, and J and K are any two that do. With a committed
stdout given, the choice made there is taken over if the listing confirms it; otherwise this fails.
"""

import sys
from collections import Counter
from itertools import islice
from multiprocessing import Pool
from pathlib import Path

sys.dont_write_bytecode = True

from listing import (cases_expected_jobs, cases_nil, cases_roots, cases_under_expressions,
                     cases_under_nil, cases_under_roots, cases_writer, choices, least, pair_numbers,
                     reduce)
from listing.case import HEAD
from listing.cases_jobs import damaged_cases, named_size_cases, random_cases, sample_cases
from listing.groups import GROUPS, STORED, made
from listing.meaning import Wrong
from listing.program import confirm_text
from listing.renewed import renewed
from listing.tables import MOST_LENGTH, SCHEMA_BYTES, TAKEN

END = "end\n"


def all_cases():
    """The cases of all groups in order, made by as many processes as there are cores."""
    with Pool() as pool:
        parts = pool.map(made, range(len(GROUPS)), chunksize=1)
    stored, new = parts[:len(STORED)], parts[len(STORED):]
    for cases in (*(cases for cases, _ in stored), *(again for _, again in stored),
                  *(cases for cases, _ in new)):
        yield from cases


def committed_texts(path, cases):
    """The text that the committed stdout has for each case."""
    lines, at = Path(path).read_text().splitlines(keepends=True), 0
    for case in cases:
        end = at
        while case.letter in choices.JOBS and lines[end:end + 1] not in ([], ["--\n"]):
            end += 1
        yield "".join(lines[at:end + 1])
        at = end + 1
    if lines[at:] != [END]:
        raise Wrong("the committed stdout has other cases")


def write_cases(folder, committed):
    """Write stdin and stdout, and count the answers."""
    cases = list(all_cases())
    texts = [case.text for case in cases]
    if committed:
        texts = [choices.taken_over(case, text)
                 for case, text in zip(cases, list(committed_texts(committed, cases)))]
    folder.mkdir(parents=True, exist_ok=True)
    stdin = b"".join(case.framed() for case in cases) + bytes(HEAD)
    (folder / "stdin").write_bytes(stdin)
    (folder / "stdout").write_text("".join(texts) + END)
    (folder / "pairtable").write_text(pair_numbers.table_text())
    report(cases)


def report(cases):
    """Say how often the cases of each name had each answer; fail if one came up too rarely."""
    totals, counts = Counter(case.letter for case in cases), {}
    for case in cases:
        of_name = counts.setdefault(case.name, Counter())
        of_name["cases"] += 1
        of_name.update(map(str, case.answers))
    print(f"{len(cases)} cases: {counts_text(totals)}", file=sys.stderr)
    for name, of_name in counts.items():
        print(f"  {name}: {counts_text(of_name)}", file=sys.stderr)
    rare = least.too_rare(totals, counts)
    if rare:
        raise Wrong(f"too few cases: {'; '.join(rare)}")


def counts_text(counts):
    """The numbers by answer, refusals first."""
    answers = sorted(counts, key=lambda answer: (not answer.isdigit(), len(answer), answer))
    return ", ".join(f"{counts[answer]} {answer}" for answer in answers)


def write_folders(count, folder):
    """Jobs as folders for tests/program."""
    cases = list(random_cases("folders", count // 5, count // 15, count // 30, lists=4))
    cases += list(damaged_cases(count // 10))
    cases += list(islice(cases_under_expressions.random_job_cases(), count // 10))
    cases += list(islice(cases_under_roots.random_job_cases(), count // 10))
    cases += list(islice(cases_under_nil.random_job_cases(), count // 10))
    cases += renewed(cases)
    named = []
    for name, some in (("sample", sample_cases()), ("random", cases),
                       ("roots", jobs(cases_roots.hand_cases, cases_under_roots.document_cases)),
                       ("nil", jobs(cases_nil.hand_cases, cases_under_nil.document_cases,
                                    cases_under_nil.level_cases))):
        named += [(f"{name}-{n}", case) for n, case in enumerate(some)]
    named += [*named_size_cases(), *cases_under_expressions.named_size_cases()]
    write_jobs(named, folder)


def write_jobs(named, folder):
    """Each job as a folder of its name."""
    for name, case in named:
        here = folder / name
        here.mkdir(parents=True)
        (here / "schema.tab").write_bytes(case.first)
        (here / "events").write_bytes(case.second)
        (here / "expected").write_text(case.text.removesuffix("--\n"))


def write_expected(count, folder):
    """Jobs as folders for tests/whatnext."""
    write_jobs(cases_expected_jobs.folder_cases(count), folder)


def write_stored(count, folder):
    """Schema files as folders for tests/trimschema."""
    files = [case.first for cases in (cases_writer.hand_cases, cases_writer.number_cases)
             for case in cases()]
    files += [case.first for case in cases_writer.random_cases("stored", count)]
    files += [case.first for case in cases_writer.damaged_cases(count)]
    for n, file in enumerate(dict.fromkeys(files)):
        here = folder / str(n)
        here.mkdir(parents=True)
        number, data = written(file)
        (here / "stored").write_bytes(file)
        if number == TAKEN:
            (here / "written").write_bytes(data)
        else:
            (here / "refused").write_text(f"schema refused {number}\n")


def written(file):
    """What the program trimschema, which has room for all, answers and writes."""
    return reduce.answer(file[:SCHEMA_BYTES], MOST_LENGTH)


def jobs(*groups):
    """The jobs among these cases."""
    return [case for cases in groups for case in cases() if case.letter == "J"]


def main(arguments):
    if len(arguments) == 3 and arguments[0] == "--folders":
        write_folders(int(arguments[1]), Path(arguments[2]))
    elif len(arguments) == 3 and arguments[0] == "--stored":
        write_stored(int(arguments[1]), Path(arguments[2]))
    elif len(arguments) == 3 and arguments[0] == "--expected":
        write_expected(int(arguments[1]), Path(arguments[2]))
    elif len(arguments) == 3 and arguments[0] == "--confirm":
        confirm_text(Path(arguments[1]).read_bytes(), Path(arguments[2]).read_text())
    elif len(arguments) in (1, 2) and not arguments[0].startswith("--"):
        write_cases(Path(arguments[0]), *(arguments[1:] or [None]))
    else:
        print(__doc__, file=sys.stderr)
        return 2
    return 0


if __name__ == "__main__":
    try:
        sys.exit(main(sys.argv[1:]))
    except Wrong as wrong:
        print(f"documents.py: {wrong}", file=sys.stderr)
        sys.exit(1)
