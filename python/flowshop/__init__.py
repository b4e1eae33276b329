"""Exact permutation flow shops: makespans, starting sequences, least makespans, and certificates of them.

A shop has jobs 1 to n and machines 1 to m. Every machine takes the jobs in one common order, each job visits machine 1
first, and the makespan is when the last job leaves the last machine. The calls are those of the library for C, whose
results are proved. This package is tested: it hands numbers and texts to them and back, and makes the steps of
`certify`. Whatever makes a certificate, Shop.check by one worker is a proved call. Calls let other threads run.

    Shop.from_jobs(table)       the shop of a table with a row for each job, with its names
    read_table("orders.csv")    the same of the file of a spreadsheet, where all that is in doubt is asked at once
    shop.certify(workers=-1)    bounds of the least makespan, or that, with a Certificate
    shop.check(certificate)     what a certificate proves
    shop.schedule(sequence)     when each job starts and ends: to_frame(), plot(); shop.gantt and shop.report show it
    shop.makespan(sequence)     the makespan of a list of numbers or names of jobs; shop.makespans of many
    shop.neh(), shop.improve()  good sequences in a short time; shop.solve and shop.prove are searches of other kinds

`help(flowshop.Shop)` and `help(flowshop.Shop.certify)` have the options and errors of each. What calls give has help of
its own too: Certificate, Start, Timetable, Operation, Picture, Report, Block, and of `prove` Proved, Below, Over, Part.
So have Plan, of a table by the clock, with Change and Remark, and Progress.

    >>> from flowshop import Shop
    >>> shop = Shop.from_jobs([[4, 0, 4], [0, 8, 0], [0, 2, 1]])
    >>> certificate = shop.solve()
    >>> certificate.upper, certificate.sequence, shop.check(certificate) == certificate
    (12, (3, 1, 2), True)
"""

# The first module that calls the library compares it with this version.
__version__ = "2.0.0"

from ._errors import FlowshopError as FlowshopError
from ._errors import Interrupted as Interrupted
from ._errors import NotASequence as NotASequence
from ._errors import NotAShop as NotAShop
from ._errors import NotLawful as NotLawful
from ._errors import OptionError as OptionError
from ._errors import OverBudget as OverBudget
from ._errors import TextError as TextError
from ._change import Change as Change
from ._found import Below as Below
from ._found import Over as Over
from ._found import Part as Part
from ._found import Proved as Proved
from ._plan import Plan as Plan
from ._reading import read_table as read_table
from ._remarks import NotATable as NotATable
from ._remarks import Remark as Remark
from ._results import Certificate as Certificate
from ._results import Operation as Operation
from ._results import Picture as Picture
from ._results import Report as Report
from ._results import Start as Start
from ._results import Timetable as Timetable
from ._shop import Block as Block
from ._shop import Shop as Shop
from ._waiting import Progress as Progress

# Errors name the package, not an inner module. help() of the package shows all that names it, so the classes of results
# keep theirs.
for _name in (
    *("FlowshopError", "Interrupted", "NotASequence", "NotAShop", "NotATable", "NotLawful", "OptionError"),
    *("OverBudget", "TextError", "read_table"),
):
    globals()[_name].__module__ = __name__
del _name
