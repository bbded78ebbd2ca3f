"""The program that tests and measurements take: the one that operate/program finds."""

from store_release.program import program_or_end as program_or_end
