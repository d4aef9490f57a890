"""msrepack from Python: miniSEED in the fewest records of one length, and what its reports tell.

All work is done by the program msrepack, which `find_program` finds; this package asks it and reads its answers.

>>> import msrepack
>>> packed = msrepack.repack("examples/one-record.mseed", length=256)
>>> msrepack.check(packed.records, packed.report)
True
"""
from msrepack import lines
from msrepack.channels import Daily, Extent, Gap, daily, extents, gaps
from msrepack.errors import BadCall, Error, Failed, NotAReport, NotFound, Refused, TimedOut
from msrepack.files import Counts, Difference, Listing, Packed, Same, Written, check, compare, listing, repack, segments
from msrepack.program import find_program
from msrepack.report import Flags, Report, Segment
from msrepack.walks import archive, dry_run, verify

# That of the program which this package was tested with.
__version__ = "1.1.0"

__all__ = [
    "BadCall",
    "Counts",
    "Daily",
    "Difference",
    "Error",
    "Extent",
    "Failed",
    "Flags",
    "Gap",
    "Listing",
    "NotAReport",
    "NotFound",
    "Packed",
    "Refused",
    "Report",
    "Same",
    "Segment",
    "TimedOut",
    "Written",
    "archive",
    "check",
    "compare",
    "daily",
    "dry_run",
    "extents",
    "find_program",
    "gaps",
    "lines",
    "listing",
    "repack",
    "segments",
    "verify",
]
