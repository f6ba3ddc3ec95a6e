"""Queries over a cluster of Dask on this machine, of which a worker is killed."""

import os
import signal
import unittest
import warnings

import clpq
from clpq import Answer, NoMore, Source

from .around import PROGRAM

try:
    import distributed
except ImportError as why:
    raise unittest.SkipTest("distributed is not there") from why

SQUARES = Source("square(N, M) :- M is N*N.\n")
COUNT = 60


class Cluster(unittest.TestCase):
    def test_a_worker_is_killed(self):
        warnings.simplefilter("ignore")
        with distributed.LocalCluster(
            n_workers=2, threads_per_worker=1, host="127.0.0.1", dashboard_address=None, silence_logs=50
        ) as cluster, distributed.Client(cluster) as client:
            workers = client.run(os.getpid)
            self.assertEqual(len(workers), 2)
            found = []
            for items in clpq.map(SQUARES, (f"square({n}, M)" for n in range(COUNT)), executor=client.get_executor(), ahead=20, program=PROGRAM):
                if len(found) == COUNT // 3:
                    os.kill(min(workers.values()), signal.SIGKILL)
                found.append(items)
        self.assertEqual(found, [(Answer(n, "", {"M": n * n}), NoMore(n, "")) for n in range(COUNT)])


if __name__ == "__main__":
    unittest.main()
