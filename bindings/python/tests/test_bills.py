"""Bills: by hand, of runs by chance, and refused."""

from __future__ import annotations

import random

import made
import nozhuiteca
from nozhuiteca import _tables
from shared import SAMPLE, Case


class Bills(Case):
    def test_by_hand(self) -> None:
        """A receipt of a file alone; and three stations, the first two with other receipts between theirs."""
        one = nozhuiteca.bill(nozhuiteca.receipt(SAMPLE, 7, 12))
        self.assertEqual(one, nozhuiteca.Bill("station=7\naccepted=1\nrefused=0\ntotal=1\n", ((7, 1, 0),), 1))
        run = made.run([(20, 5, 0), (3, 9, 0), (20, 6, 24), (99, 1, 2), (3, 10, 0), (3, 999_999, 1), (20, 1000, 0)])
        bill = nozhuiteca.bill(run)
        self.assertEqual(bill.text, "station=3\naccepted=2\nrefused=1\nstation=20\naccepted=2\nrefused=1\n"
                                    "station=99\naccepted=0\nrefused=1\ntotal=4\n")
        self.assertEqual((bill.rows, bill.total), (((3, 2, 1), (20, 2, 1), (99, 0, 1)), 4))
        row = bill.rows[0]
        self.assertEqual((type(row), row.station, row.accepted, row.refused), (nozhuiteca.BillRow, 3, 2, 1))

    def test_no_receipts(self) -> None:
        self.assertEqual(nozhuiteca.bill(b""), nozhuiteca.Bill("total=0\n", (), 0))

    def test_all_stations(self) -> None:
        """Every station, the last one first, with a hundred accepted and a hundred refused jobs."""
        bill = nozhuiteca.bill(made.run((station, job, job % 2) for station in range(99, 0, -1) for job in range(1, 201)))
        self.assertEqual(bill.rows, tuple((station, 100, 100) for station in range(1, 100)))
        self.assertEqual(bill.total, 9_900)

    def test_by_chance(self) -> None:
        """The rows are the receipts counted; the text is the rows written out."""
        chance = random.Random(8)
        for _ in range(300):
            receipts = made.generated_rows(chance)
            bill = nozhuiteca.bill(made.run(receipts))
            stations = sorted({station for station, _, _ in receipts})
            verdicts = {station: [verdict for by, _, verdict in receipts if by == station] for station in stations}
            expected = [(by, verdicts[by].count(0), len(verdicts[by]) - verdicts[by].count(0)) for by in stations]
            self.assertEqual(list(bill.rows), expected)
            self.assertEqual(bill.total, sum(accepted for _, accepted, _ in expected))
            lines = "".join(f"station={by}\naccepted={accepted}\nrefused={refused}\n" for by, accepted, refused in expected)
            self.assertEqual(bill.text, f"{lines}total={bill.total}\n")


class Refused(Case):
    def test_jobs(self) -> None:
        """Jobs that do not rise within their station, whatever stands between them and whatever the verdicts."""
        for jobs in ((12, 12), (12, 11), (100, 99), (9, 10, 10), (999_999, 1)):
            for verdict in (0, 24):
                error = self.refused(30, nozhuiteca.bill, made.run((7, job, verdict) for job in jobs))
                self.assertEqual(error.subject, "The run of receipts")
                self.refused(30, nozhuiteca.bill, b"".join(made.receipt(7, job) + made.receipt(8, place + 1, verdict)
                                                           for place, job in enumerate(jobs)))
        self.assertEqual(nozhuiteca.bill(made.run([(7, 12, 0), (8, 12, 0), (8, 13, 0), (7, 13, 0)])).total, 4)

    def test_malformed(self) -> None:
        """A run of three receipts without one of its bytes is malformed, but for a digit of a job."""
        receipts = [made.receipt(7, 12), made.receipt(7, 13), made.receipt(7, 14, 3)]
        whole = b"".join(receipts)
        for at, byte in enumerate(whole):
            cut = whole[:at] + whole[at + 1:]
            if chr(byte) not in "1234" or whole[:at].rpartition(b"\n")[2][:4] != b"job=":
                self.refused(29, nozhuiteca.bill, cut)
            elif at < len(receipts[0]):
                self.assertEqual(nozhuiteca.bill(cut).rows, ((7, 2, 1),))
            else:
                self.refused(30, nozhuiteca.bill, cut)
        for between in (b"\n", b" ", b"\0"):
            self.refused(29, nozhuiteca.bill, between.join(receipts))
        for other in (made.receipt(7, 1_000_000), made.receipt(100, 13), made.receipt(7, 13, 25),
                      receipts[1].replace(b"job=13", b"job=013"), receipts[1].replace(b"units=1", b"units=0")):
            self.refused(29, nozhuiteca.bill, receipts[0] + other)
        self.refused(29, nozhuiteca.bill, SAMPLE)
        self.refused(29, nozhuiteca.bill, nozhuiteca.bill(whole).text.encode())

    def test_the_first_decides(self) -> None:
        """By place in the run, and within one receipt 29 before 30."""
        right, malformed = made.receipt(7, 12), made.receipt(7, 12, 25)
        self.refused(30, nozhuiteca.bill, right + right + malformed)
        self.refused(29, nozhuiteca.bill, right + malformed + right)

    def test_length(self) -> None:
        most = _tables.FILE_LIMIT
        self.refused(1, nozhuiteca.bill, bytes(most + 1))
        self.refused(29, nozhuiteca.bill, bytes(most))
        self.refused(1, nozhuiteca.bill, made.receipt(7, 12).ljust(most + 1, b"\n"))
