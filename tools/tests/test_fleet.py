"""dashboard.json and alerts.yml, of three machines: their metrics are scraped by Prometheus on the loopback alone.

The machines are the recorded one of samples/, with other digits where free pages are to be scarce. What the panels show
is what the monitor prints as JSON. Without prometheus and prometheus-node-exporter the live test is skipped.
"""
import json
import os
import re
import shutil
import socket
import subprocess
import sys
import tempfile
import time
import unittest
import urllib.parse
import urllib.request
from pathlib import Path

from calls import SAMPLES, TOOLS

PROMETHEUS, EXPORTER = "prometheus", "prometheus-node-exporter"
MACHINES = ("one", "two", "three")
# Free pages of zone Normal: as recorded, within 216 pages of its min, and surely below that (13,831).
RECORDED, NEAR, SCARCE = 85719, 13900, 10019
WAIT = 120
BOARD = json.loads((TOOLS / "dashboard.json").read_text(encoding="ascii"))
QUERIES = {panel["title"]: panel["targets"][0]["expr"] for panel in BOARD["panels"]}
# No proxy is asked.
OPENER = urllib.request.build_opener(urllib.request.ProxyHandler({}))


def printed(free, form):
    """What the monitor prints of the recorded machine with so many free pages in zone Normal."""
    zoneinfo = (SAMPLES / "zoneinfo").read_text(encoding="ascii")
    text = re.sub(rf"(pages free +|nr_free_pages ){RECORDED}\n", rf"\g<1>{free}\n", zoneinfo)
    done = subprocess.run([sys.executable, "-B", TOOLS / "monitor.py", "--zoneinfo", "-", "--page-size", "4096", form],
                          input=text, capture_output=True, text=True, check=True)
    return done.stdout


class BoardTest(unittest.TestCase):
    def test_metrics_are_those_of_the_monitor(self):
        metrics = printed(RECORDED, "--prometheus")
        named = set(re.findall(r"\bvozhkell_\w+", " ".join(QUERIES.values())))
        self.assertGreaterEqual(len(named), 6)
        for name in named:
            self.assertRegex(metrics, rf"(?m)^{name}[ {{]")

    def test_panels(self):
        self.assertEqual(len({panel["id"] for panel in BOARD["panels"]}), len(BOARD["panels"]))
        known = {variable["name"] for variable in BOARD["templating"]["list"]}
        for query in QUERIES.values():
            self.assertLessEqual(set(re.findall(r"\$(\w+)", query)), known)
            self.assertIn('{instance=~"$instance"', query)


def free_port():
    with socket.socket() as sock:
        sock.bind(("127.0.0.1", 0))
        return sock.getsockname()[1]


@unittest.skipUnless(shutil.which(PROMETHEUS) and shutil.which(EXPORTER),
                     "prometheus and prometheus-node-exporter aren't both installed")
class FleetTest(unittest.TestCase):
    def setUp(self):
        folder = tempfile.TemporaryDirectory(ignore_cleanup_errors=True)
        self.addCleanup(folder.cleanup)
        self.folder = Path(folder.name)
        self.free = {}
        targets = []
        for machine in MACHINES:
            (self.folder / machine).mkdir()
            self.write(machine, RECORDED)
            address = f"127.0.0.1:{free_port()}"
            self.start(EXPORTER, "--collector.disable-defaults", "--collector.textfile",
                       f"--collector.textfile.directory={self.folder / machine}", f"--web.listen-address={address}")
            targets.append({"targets": [address], "labels": {"instance": machine}})
        # the rules as they stand, but that an alert waits for a second only
        rules = (TOOLS / "alerts.yml").read_text(encoding="utf-8")
        (self.folder / "rules.yml").write_text(re.sub(r"\bfor: \d+m\b", "for: 1s", rules), encoding="utf-8")
        config = {"global": {"scrape_interval": "1s", "evaluation_interval": "1s"},
                  "rule_files": [str(self.folder / "rules.yml")],
                  "scrape_configs": [{"job_name": "node", "static_configs": targets}]}
        (self.folder / "config.yml").write_text(json.dumps(config), encoding="ascii")
        self.address = f"127.0.0.1:{free_port()}"
        self.start(PROMETHEUS, f"--config.file={self.folder / 'config.yml'}", f"--web.listen-address={self.address}",
                   f"--storage.tsdb.path={self.folder / 'data'}", "--log.level=error")

    def start(self, *command):
        started = subprocess.Popen(command, stdout=subprocess.DEVNULL, stderr=subprocess.DEVNULL, cwd=self.folder)
        self.addCleanup(self.stop, started)

    @staticmethod
    def stop(started):
        started.terminate()
        try:
            started.wait(20)
        except subprocess.TimeoutExpired:
            started.kill()
            started.wait()

    def write(self, machine, free, age=0):
        """Writes a machine's metrics as the guide's timer does, or as it did so many seconds ago."""
        self.free[machine] = free
        file = self.folder / machine / "vozhkell"
        file.with_suffix(".new").write_text(printed(free, "--prometheus"), encoding="ascii")
        os.utime(file.with_suffix(".new"), (time.time() - age,) * 2)
        os.replace(file.with_suffix(".new"), file.with_suffix(".prom"))

    def ask(self, query):
        """What Prometheus answers now: numbers by the labels of what they are of, without the job."""
        words = urllib.parse.urlencode({"query": query})
        with OPENER.open(f"http://{self.address}/api/v1/query?{words}", timeout=20) as answer:
            found = json.load(answer)["data"]["result"]
        return {tuple(one["metric"][name] for name in ("alertname", "instance", "node", "zone", "watermark")
                      if name in one["metric"]): float(one["value"][1]) for one in found}

    def show(self, title, window="10m"):
        """What a panel shows of all machines."""
        query = QUERIES[title]
        for name, value in (("instance", ".*"), ("window", window), ("step", "1s")):
            query = query.replace(f"${name}", value)
        return self.ask(query)

    def wait_for(self, wanted, found):
        """Asks until what is found is what is wanted."""
        ends, last = time.monotonic() + WAIT, None
        while time.monotonic() < ends:
            try:
                last = found()
            except OSError:  # it doesn't listen yet
                pass
            if last == wanted:
                return
            time.sleep(0.3)
        self.assertEqual(last, wanted)

    def zones(self):
        """The zones of all machines as the monitor prints them as JSON, by their labels."""
        for machine in MACHINES:
            for zone in json.loads(printed(self.free[machine], "--json"))["zones"]:
                yield (machine, str(zone["node"]), zone["zone"]), zone

    def marks(self, side):
        """The watermarks that have free pages on this side."""
        return [(*labels, mark) for labels, zone in self.zones() for mark, told in zone["watermarks"].items()
                if told["free_pages"] == side]

    def check_panels(self):
        """The panels show what the monitor printed. They need a scrape after it was written."""
        figures = {labels: zone["counters"]["nr_free_pages"] for labels, zone in self.zones()}
        untold, below = self.marks("can't be told"), self.marks("surely below")
        every = {(*labels, mark): 0 for labels, zone in self.zones() for mark in zone["watermarks"]}
        wanted = {
            "When a watermark couldn't be told": {**every, **dict.fromkeys(untold, 1)},
            "Surely below a watermark": dict.fromkeys(below, 1),
            "Watermarks that can't be told": {(): len(untold)},
            "Watermarks that free pages are surely below": {(): len(below)},
            "Machines": {(): len(MACHINES)},
            "By how much free pages can be off": {labels: one["off_by"] * 4096 for labels, one in figures.items()},
            "By which part of them free pages can be off":
                {labels: one["off_by"] / one["value"] for labels, one in figures.items()},
        }
        for title, numbers in wanted.items():
            with self.subTest(title):
                self.wait_for(numbers, lambda: self.show(title))
        self.assertEqual(set(QUERIES) - set(wanted),
                         {"Since when a watermark can't be told", "Age of the oldest metrics"})
        return untold

    def firing(self):
        return sorted(self.ask('ALERTS{alertstate="firing"}'))

    def test_three_machines(self):
        self.assertEqual(self.check_panels(), [])
        self.assertEqual(self.show("Since when a watermark can't be told"), {})
        self.wait_for([], self.firing)
        before = time.time()
        self.write("one", RECORDED, age=400)
        self.write("two", NEAR)
        self.write("three", SCARCE)
        self.wait_for([("FreePagesBelowMin", "three", "0", "Normal", "min"),
                       ("FreePagesNearMin", "two", "0", "Normal", "min"), ("VozhkellMetricsAreOld", "one")],
                      self.firing)
        untold = self.check_panels()
        self.assertEqual(untold, [("two", "0", "Normal", "min")])
        since = self.show("Since when a watermark can't be told")
        self.assertEqual(list(since), untold)
        self.assertTrue(before - 10 <= since[untold[0]] / 1000 <= time.time(), (before, since))
        # where it began before the window
        recent = self.show("Since when a watermark can't be told", "2s")
        self.assertTrue(since[untold[0]] < recent[untold[0]] <= 1000 * time.time(), (since, recent))
        self.assertGreaterEqual(self.show("Age of the oldest metrics")[()], 400)
        for machine in MACHINES:
            self.write(machine, RECORDED)
        self.wait_for([], self.firing)
        self.assertEqual(self.check_panels(), [])
        self.assertLess(self.show("Age of the oldest metrics")[()], 300)
        # before that the metrics were missing for a moment, as Prometheus began
        query = f'count by (alertname) (count_over_time(ALERTS{{alertstate="firing"}}[{int(time.time() - before)}s]))'
        fired = self.ask(query)
        self.assertEqual(fired, {("FreePagesBelowMin",): 1, ("FreePagesNearMin",): 1, ("VozhkellMetricsAreOld",): 1})


if __name__ == "__main__":
    unittest.main()
