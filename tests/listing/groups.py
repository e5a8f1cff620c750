"""All cases, in the groups in which they are made.

Those of files that passed until now come first; then those of them made anew that are refused with
24, and then those of unused types and of the writer, and those of what would have been taken."""

from . import (cases_calls, cases_events, cases_expected, cases_expected_jobs,
               cases_expected_random, cases_expressions, cases_jobs, cases_nil,
               cases_none_nillable, cases_roots, cases_schema, cases_under_expressions,
               cases_under_nil, cases_under_roots, cases_unused, cases_values, cases_words,
               cases_writer)
from .renewed import renewed

STORED = (
    cases_schema.CASES,
    cases_calls.FRESH_CASES,
    cases_calls.MADE_UP_CASES,
    cases_events.CASES,
    *((part,) for part in cases_jobs.RANDOM_CASES),
    cases_jobs.OTHER_CASES,
    cases_values.CASES,
    cases_words.CASES,
    cases_expressions.CASES,
    cases_under_expressions.CASES,
    cases_roots.CASES,
    cases_under_roots.CASES,
    cases_nil.CASES,
    cases_nil.RANDOM_CASES,
    cases_under_nil.CASES,
    cases_none_nillable.CASES,
)
NEW = (
    cases_unused.CASES,
    cases_unused.RANDOM_CASES,
    cases_writer.CASES,
    cases_writer.RANDOM_CASES,
    cases_writer.MORE_RANDOM_CASES,
    cases_expected.CASES,
    cases_expected.OTHER_CASES,
    cases_expected_random.CASES,
    cases_expected_random.VALUE_CASES,
    cases_expected_jobs.CASES,
    cases_expected_jobs.RANDOM_CASES,
)
GROUPS = STORED + NEW


def made(number):
    """The cases of one group, and those made anew of them."""
    cases = [case for cases in GROUPS[number] for case in cases()]
    return cases, renewed(cases) if number < len(STORED) else []
