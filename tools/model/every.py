"""A round with every check."""
from model.cells import KINDS
from model.changes import Changes
from model.faults import Faults
from model.joins import Joins
from model.merges import Merges
from model.options import Options
from model.reports import Reports
from model.rounds import Round
from model.sameness import some_sameness


class EveryCheck(Round, Reports, Changes, Merges, Joins, Options, Faults):
    """A round with each command."""

    def check(self):
        self.check_changes()
        self.check_part()
        self.check_report()
        self.check_merge()
        self.check_merge(by_cell=True)
        if not self.repeats:
            sameness = some_sameness(self.rng)
            self.check_report(sameness)
            self.check_merge(self.rng.random() < 0.5, sameness)
        self.check_join(self.rng.choice(KINDS))
        self.check_lookup()
        self.check_overlay()
        self.check_two_names()
        self.check_only()
        self.check_reading()
        self.check_empty()
        if not self.repeats:
            self.check_sorted()
        self.check_delimiters()
        self.check_lines_above()
        self.check_heading()
        self.check_quiet()
        self.check_lenient()
        self.check_marks_of_git()
        self.check_fault()
