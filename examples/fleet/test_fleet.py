"""A folder of good and damaged yards, checked by a local cluster of four processes, beside the same in this process.
Run by `make python-test` at the repository's root; left out where dask.distributed is not at hand."""
import contextlib
import io
import os
import pathlib
import subprocess
import sys
import tempfile
import unittest

try:
    import distributed
except ImportError:
    distributed = None

HERE = pathlib.Path(__file__).resolve().parent
SAMPLES = HERE.parents[1] / "samples"
COPIES = 40


def damaged(whole, k):
    """The yard with something wrong with it, another thing for each k; as it is for some."""
    wrong = bytearray(whole)
    if k % 8 == 1:
        wrong[19] ^= 0x10                               # the nodes' address
    elif k % 8 == 2:
        wrong = wrong[:111]
    elif k % 8 == 3:
        at = int.from_bytes(wrong[16:20], "little") - 0x5000_0000
        wrong[at + 26:at + 28] = b"\xff\xff"            # where the first node's links begin
    elif k % 8 == 4:
        at = int.from_bytes(wrong[16:20], "little") - 0x5000_0000
        wrong[at + 18:at + 20] = wrong[at + 58:at + 60]  # two nodes of one number
    elif k % 8 == 5:
        wrong[:4] = b"RSC7"
    return bytes(wrong)


def folder_of_yards(folder):
    for name in ("dock", "hall"):
        whole = (SAMPLES / f"{name}.section").read_bytes()
        for k in range(COPIES):
            pathlib.Path(folder, f"{name}{k:03}.section").write_bytes(damaged(whole, k))
    return sorted(pathlib.Path(folder).glob("*.section"))


@unittest.skipUnless(distributed, "dask.distributed is not at hand: apt-get install python3-distributed")
class Fleet(unittest.TestCase):
    def test_four_processes_say_what_one_says(self):
        import fleet
        fleet.BATCH_BYTES = 4_000                       # many batches of a few yards
        with tempfile.TemporaryDirectory() as folder:
            files = folder_of_yards(folder)
            with distributed.LocalCluster(n_workers=4, threads_per_worker=1, dashboard_address=None) as cluster:
                with distributed.Client(cluster) as client:
                    answers = list(fleet.checked(client, files + [pathlib.Path(folder, "none.section")]))
                    workers = set(client.run(os.getpid).values())
            own = [(file.name, *fleet.verdict(file.read_bytes())) for file in files]
        self.assertEqual(sorted(answers), sorted(own + [("none.section", "unread", "No such file or directory")]))
        self.assertEqual((len(workers), os.getpid() in workers), (4, False))
        causes = fleet.by_cause(own)
        self.assertEqual({kind: len(names) for kind, (_, names) in causes.items()}, {
            "sound": 30, "container": 10, "refused 1": 10, "refused 3": 10, "refused 4": 10, "unsound": 10})

    def test_the_program(self):
        with tempfile.TemporaryDirectory() as folder:
            folder_of_yards(folder)
            said = subprocess.run([sys.executable, "-B", str(HERE / "fleet.py"), folder, "--workers", "4"],
                                  capture_output=True, text=True, timeout=300)
        self.assertEqual(said.returncode, 1, said.stderr)
        self.assertIn("    10  refused 1: 1 to 111 system bytes\n"
                      "        dock002.section, dock010.section, dock018.section and 7 more\n", said.stdout)
        self.assertTrue(said.stdout.endswith("    80  yards, 30 sound, 50 not\n"), said.stdout)

    def test_what_asks_for_much_memory_is_not_read(self):
        import fleet
        kept, fleet.MEMORY_MOST = fleet.MEMORY_MOST, 1_000
        try:
            self.assertEqual(fleet.verdict((SAMPLES / "hall.section").read_bytes())[0], "memory")
        finally:
            fleet.MEMORY_MOST = kept
        with contextlib.redirect_stdout(io.StringIO()) as said:
            fleet.report(fleet.by_cause([]))
        self.assertEqual(said.getvalue(), "     0  yards, 0 sound, 0 not\n")


if __name__ == "__main__":
    unittest.main()
