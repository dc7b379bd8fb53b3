#!/usr/bin/env python3
"""Runs the built program with `--metrics` over loopback addresses, under load, and asks for its counts: as they are, in
wrong ways, slowly, a hundred clients at once, some that go away, and one that never reads. Each client has to get what
docs/FORMATS.md says, no packet may be lost for it, counts may only grow, the router may not take more memory, and the
report at its end has to be at least what was shown.

With `--prometheus`, Debian's `prometheus` scrapes the router for a minute besides, under a load that grows, and then with
a closed link. Its own API has to give the figures that the router shows, `promtool` may have nothing to say to them, the
alerts of packaging/ have to do what alerts.yml says, and that of a closed link has to be pending. Both programs are
looked for on the PATH. With `--picture` what it tells of that minute is drawn into docs/pictures/metrics.svg.

Use: tests/metrics/check.py [--prometheus [--picture]] [PROGRAM], where PROGRAM is bin/router if it isn't named. It takes
ports 45000 to 45003, 45100 and 45101, and 45190 of 127.0.0.1.
"""

import json
import os
import re
import socket
import struct
import subprocess
import sys
import tempfile
import threading
import time
import urllib.parse
import urllib.request

HERE = os.path.dirname(os.path.abspath(__file__))
TOP = os.path.dirname(os.path.dirname(HERE))
sys.path.insert(0, os.path.join(TOP, "tests"))

import picture  # noqa: E402
import scion  # noqa: E402

KEY = "2b7e151628aed2a6abf7158809cf4f3c"
HOST = "127.0.0.1"
SHOWN_AT = (HOST, 45003)
PROMETHEUS_AT = f"{HOST}:45190"
ALERTS = os.path.join(HERE, "alerts.yml")
RULES = os.path.join(TOP, "packaging", "prometheus", "rules.yml")
PICTURE = os.path.join(TOP, "docs", "pictures", "metrics.svg")
# So many packets have room in a socket's buffer, and the link has buffers for them: none is to be lost.
MOST_ON_THEIR_WAY = 30

CONFIGURATION = f"""version = 1
isd_as = "1-ff00:0:110"
key = "{KEY}"
internal = "{HOST}:45000"
host_port = 30041
processors = 1
capacity = 512
seed = 0
link = [
 {{id=1, kind="parent", local="{HOST}:45001", remote="{HOST}:45100"}},
 {{id=2, kind="child", local="{HOST}:45002", remote="{HOST}:45101"}}]
"""

SCRAPES = f"""global: {{scrape_interval: 1s, evaluation_interval: 1s}}
rule_files: [{RULES}]
scrape_configs:
  - job_name: yewpleat
    static_configs: [{{targets: ["{HOST}:{SHOWN_AT[1]}"]}}]
"""

# What is drawn: each panel's title, what Prometheus is asked for, and the name of a line by its labels.
PANELS = [
    ("Received, packets a second", "rate(router_input_pkts_total[5s])", "link {interface}"),
    ("Sent, packets a second", "rate(router_output_pkts_total[5s])", "link {interface}"),
    ("Dropped, packets a second", "rate(router_dropped_pkts_total[5s])", "{cause} {reason}"),
]

# Where the first datagram has its timestamp, and the MAC of its second hop field.
TIMESTAMP_AT, MAC_AT = 44, 66

GET = b"GET /metrics HTTP/1.1\r\nHost: router\r\n\r\n"
SAMPLE = re.compile(r"^(\w+)(\{.*\})? (\S+)$", re.M)

faults = 0


def expect(holds, what):
    global faults
    if not holds:
        faults += 1
        print(f"not so: {what}")


def crossing():
    """The first datagram, made in the present minute: link 1's neighbour sends it, and it leaves by link 2."""
    with open(os.path.join(TOP, "examples", "first-datagram.hex"), encoding="ascii") as file:
        data = bytearray(bytes.fromhex(file.read()))
    timestamp = int(time.time()) // 60 * 60
    data[TIMESTAMP_AT : TIMESTAMP_AT + 4] = timestamp.to_bytes(4, "big")
    data[MAC_AT : MAC_AT + 6] = scion.mac_of(bytes.fromhex(KEY), 0x1234, timestamp, 63, 1, 2)
    return bytes(data)


# Clients.


def asked(request, at=SHOWN_AT):
    """What the router answers to these bytes, until it closes the connection."""
    with socket.create_connection(at, timeout=60) as client:
        try:
            client.sendall(request)
        except OSError:
            pass
        answer = b""
        while True:
            try:
                part = client.recv(65536)
            except OSError:
                return answer
            if not part:
                return answer
            answer += part


def page():
    head, _, body = asked(GET).partition(b"\r\n\r\n")
    expect(head.startswith(b"HTTP/1.1 200 OK\r\n"), f"200 for the page: {head}")
    expect(b"\r\nContent-Type: text/plain; version=0.0.4\r\n" in head, "its type")
    expect(b"\r\nContent-Length: %d\r\n" % len(body) in head, "its length")
    return body.decode()


def samples(text):
    return {name + labels: float(value) for name, labels, value in SAMPLE.findall(text)}


class Load(threading.Thread):
    """Sends the datagram from the neighbour of link 1, and short ones, and counts what comes to that of link 2."""

    def __init__(self, pause):
        super().__init__(daemon=True)
        self.pause, self.sent, self.came, self.ends, self.is_lost = pause, 0, 0, False, False
        self.parent = socket.socket(socket.AF_INET, socket.SOCK_DGRAM)
        self.parent.bind((HOST, 45100))
        self.child = socket.socket(socket.AF_INET, socket.SOCK_DGRAM)
        self.child.bind((HOST, 45101))
        self.child.setsockopt(socket.SOL_SOCKET, socket.SO_RCVBUF, 1 << 22)
        self.child.setblocking(False)

    def take(self):
        try:
            while self.child.recv(2048):
                self.came += 1
        except BlockingIOError:
            pass

    def run(self):
        data = crossing()
        while not self.ends:
            if self.is_lost or self.sent - self.came < MOST_ON_THEIR_WAY:
                for _ in range(10):
                    self.parent.sendto(data, (HOST, 45001))
                self.parent.sendto(b"x", (HOST, 45001))
                self.sent += 10
            self.take()
            time.sleep(self.pause)

    def stop(self):
        self.ends = True
        self.join()
        time.sleep(0.5)
        self.take()
        self.parent.close()
        self.child.close()


class Router:
    def __init__(self, program, words):
        self.process = subprocess.Popen(
            [program, "run", "--config", words[0], *words[1:]],
            stdin=subprocess.PIPE,
            stdout=subprocess.PIPE,
            stderr=subprocess.PIPE,
            text=True,
        )

    def line(self):
        return self.process.stdout.readline().rstrip("\n")

    def tell(self, line):
        self.process.stdin.write(line + "\n")
        self.process.stdin.flush()

    def memory(self):
        """What it has in memory, in KiB."""
        with open(f"/proc/{self.process.pid}/status", encoding="ascii") as file:
            return int(re.search(r"^VmRSS:\s+(\d+)", file.read(), re.M).group(1))

    def threads(self):
        return len(os.listdir(f"/proc/{self.process.pid}/task"))

    def end(self):
        """Its report, and how long it took to the end."""
        since = time.monotonic()
        out, err = self.process.communicate("end\n", timeout=60)
        expect(self.process.returncode == 0 and not err, f"it ends well: {self.process.returncode} {err!r}")
        return out, time.monotonic() - since


# Trials.


def wrong_requests():
    answers = [
        (b"GET /metrics HTTP/1.0\r\n\r\n", b"HTTP/1.1 200"),
        (b"GET /metrics?x=1 HTTP/1.1\r\n\r\n", b"HTTP/1.1 200"),
        (b"GET / HTTP/1.1\r\n\r\n", b"HTTP/1.1 404"),
        (b"GET /metrics/ HTTP/1.1\r\n\r\n", b"HTTP/1.1 404"),
        (b"POST /other HTTP/1.1\r\n\r\n", b"HTTP/1.1 404"),
        (b"POST /metrics HTTP/1.1\r\nContent-Length: 2\r\n\r\nab", b"HTTP/1.1 405"),
        (b"HEAD /metrics HTTP/1.1\r\n\r\n", b"HTTP/1.1 405"),
        (b"\x16\x03\x01\x02\x00\x01\x00\x01", b""),
        (b"GET /metrics\r\n\r\n", b""),
        (b"GET /metrics HTTP/1.1\r\nX: " + 9000 * b"a" + b"\r\n\r\n", b""),
        (b"GET /metrics HTTP/1.1\r\n" + 1300 * b"X: 1\r\n" + b"\r\n", b"HTTP/1.1 200"),
        (b"GET /metrics HTTP/1.1\r\n" + 2700 * b"X:\n" + b"\r\n", b"HTTP/1.1 200"),
        (b"GET /metrics HTTP/1.1\r\n" + 1400 * b"X: 1\r\n" + b"\r\n", b""),
    ]
    for request, begin in answers:
        answer = asked(request)
        expect(answer.startswith(begin) and bool(answer) == bool(begin), f"{request[:40]!r}: {answer[:40]!r}")


def slow_request():
    with socket.create_connection(SHOWN_AT, timeout=30) as client:
        since = time.monotonic()
        try:
            for byte in GET:
                client.sendall(bytes([byte]))
                time.sleep(0.25)
            answer = client.recv(1)
        except OSError:
            answer = b""
        took = time.monotonic() - since
    expect(not answer and 4.5 < took < 11, f"a slow request is cut off after 5 seconds: {took:.1f}")


def hundred_at_once():
    clients = [socket.create_connection(SHOWN_AT, timeout=60) for _ in range(100)]
    for client in clients:
        client.sendall(GET)
    whole = 0
    for client in clients:
        answer = b""
        while part := client.recv(65536):
            answer += part
        whole += answer.startswith(b"HTTP/1.1 200") and answer.endswith(b"\n")
        client.close()
    expect(whole == 100, f"a hundred at once are all served: {whole}")


def gone_at_once():
    """Clients that reset the connection while they are answered."""
    for _ in range(50):
        client = socket.create_connection(SHOWN_AT, timeout=60)
        client.sendall(GET)
        client.setsockopt(socket.SOL_SOCKET, socket.SO_LINGER, struct.pack("ii", 1, 0))
        client.close()


def one_that_never_reads():
    client = socket.socket(socket.AF_INET, socket.SOCK_STREAM)
    client.setsockopt(socket.SOL_SOCKET, socket.SO_RCVBUF, 1024)
    client.connect(SHOWN_AT)
    client.sendall(GET)
    return client


def faults_of_start(program, config):
    taken = socket.socket(socket.AF_INET, socket.SOCK_STREAM)
    taken.setsockopt(socket.SOL_SOCKET, socket.SO_REUSEADDR, 1)
    taken.bind(SHOWN_AT)
    taken.listen()
    for words, status, err in [
        (["--metrics", f"{HOST}:{SHOWN_AT[1]}"], 1, "fault: metrics\n"),
        (["--metrics", "192.0.2.1:1"], 1, "fault: metrics\n"),
    ]:
        done = subprocess.run(
            [program, "run", "--config", config, *words], stdin=subprocess.DEVNULL, capture_output=True, text=True, timeout=60
        )
        expect((done.returncode, done.stderr, done.stdout) == (status, err, ""), f"{words}: {done}")
    taken.close()


def is_shown_by(figures, later):
    return all(later.get(name, -1) >= value for name, value in figures.items())


def is_in_report(figures, report):
    """Whether no figure is above that of the report."""
    lines = dict(line.rsplit(" ", 1) for line in report.splitlines() if " " in line)
    received = sum(value for name, value in figures.items() if name.startswith("router_input_pkts_total"))
    pairs = [(received, lines["received"]), (figures["router_answered_pkts_total"], lines["answered"])]
    for name, value in figures.items():
        if match := re.match(r'router_output_pkts_total\{interface="(\d+)"\}', name):
            pairs.append((value, lines[f"link {match.group(1)} sent"]))
        if match := re.match(r'router_dropped_pkts_total\{cause="(\d+)"', name):
            pairs.append((value, lines.get(f"dropped {match.group(1)}", "0")))
    return all(value <= float(most) for value, most in pairs)


def drops_in(figures):
    return {name: value for name, value in figures.items() if "dropped" in name and value}


def trial(program, config):
    plain = Router(program, [config])
    expect(plain.line() == "ready", "it is ready without --metrics")
    threads = plain.threads()
    try:
        socket.create_connection(SHOWN_AT, timeout=5)
        expect(False, "without --metrics nothing listens")
    except ConnectionRefusedError:
        pass
    plain.end()
    router = Router(program, [config, "--metrics", f"{HOST}:{SHOWN_AT[1]}"])
    expect(router.line() == "ready", "it is ready")
    expect(router.threads() == threads + 1, "one thread more")
    before = samples(page())
    expect(all(value == 0 for name, value in before.items() if name.endswith(("total", "}")) and "build" not in name), "all at 0")
    load = Load(0.002)
    load.start()
    wrong_requests()
    hundred_at_once()
    memory = router.memory()
    figures = before
    for _ in range(20):
        later = samples(page())
        expect(is_shown_by(figures, later), "no count falls")
        figures = later
    for _ in range(5):
        hundred_at_once()
        wrong_requests()
        gone_at_once()
    slow_request()
    deaf = one_that_never_reads()
    page()
    deaf.close()
    expect(router.memory() <= memory + 256, f"it takes no more memory: {memory} and {router.memory()} KiB")
    load.stop()
    time.sleep(1)
    last = samples(page())
    expect(last['router_input_pkts_total{interface="1"}'] == load.sent * 11 / 10, "each packet that was sent came")
    left = last['router_output_pkts_total{interface="2"}']
    expect(left == load.came == load.sent, f"each packet left, and is shown: {load.sent}, {left} and {load.came}, {drops_in(last)}")
    expect(last['router_dropped_pkts_total{cause="1",reason="short"}'] == load.sent / 10, "each short one was dropped")
    router.tell("close 2")
    expect(router.line() == "closed 2", "link 2 is closed")
    closed = samples(page())
    expect(closed['router_link_closed{interface="2"}'] == 1 and closed['router_link_closed{interface="1"}'] == 0, "it is shown closed")
    silent = [socket.create_connection(SHOWN_AT) for _ in range(20)]
    report, took = router.end()
    expect(took < 2, f"silent clients don't delay the end: {took:.1f} s")
    for client in silent:
        client.close()
    expect(is_in_report(closed, report), "the report is at least what was shown")
    print(f"{load.sent} packets crossed, {memory} KiB")


def told_by_prometheus(what, **more):
    """What Prometheus' API answers to a query."""
    query = urllib.parse.urlencode({"query": what, **more})
    kind = "query_range" if more else "query"
    with urllib.request.urlopen(f"http://{PROMETHEUS_AT}/api/v1/{kind}?{query}", timeout=30) as answer:
        return json.load(answer)["data"]["result"]


def minute_of_load(router):
    """Twenty seconds of load, twenty of more, and twenty in which the link by which it leaves is closed."""
    load = Load(0.02)
    load.start()
    time.sleep(20)
    load.pause = 0.005
    time.sleep(20)
    # What is sent from now on doesn't come.
    load.is_lost, load.pause = True, 0.01
    router.tell("close 2")
    expect(router.line() == "closed 2", "link 2 is closed")
    time.sleep(20)
    load.stop()
    return load


def figures_told(names):
    told = {}
    for one in (one for name in names for one in told_by_prometheus(name)):
        labels = {key: value for key, value in one["metric"].items() if key not in ("__name__", "instance", "job")}
        inner = ",".join(f'{key}="{value}"' for key, value in sorted(labels.items()))
        told[one["metric"]["__name__"] + (f"{{{inner}}}" if inner else "")] = float(one["value"][1])
    return told


def draw(begin, end):
    panels = []
    for title, what, name in PANELS:
        lines = told_by_prometheus(what, start=begin, end=end, step=1)
        series = {name.format(**line["metric"]): [(second, float(value)) for second, value in line["values"]] for line in lines}
        panels.append((title, {name: points for name, points in series.items() if any(value for _, value in points)}))
    with open(PICTURE, "w", encoding="ascii") as file:
        file.write(picture.picture(panels))


def promtool_takes(words, given=""):
    done = subprocess.run(["promtool", *words], input=given, capture_output=True, text=True, timeout=60)
    is_silent = not done.stdout + done.stderr
    expect(done.returncode == 0 and (is_silent or not given), f"promtool {words}: {done}")


def prometheus_trial(program, config, folder, is_drawn):
    scrapes = os.path.join(folder, "prometheus.yml")
    with open(scrapes, "w", encoding="ascii") as file:
        file.write(SCRAPES)
    router = Router(program, [config, "--metrics", f"{HOST}:{SHOWN_AT[1]}"])
    expect(router.line() == "ready", "it is ready")
    promtool_takes(["check", "metrics"], page())
    promtool_takes(["check", "config", scrapes])
    promtool_takes(["test", "rules", ALERTS])
    words = ["prometheus", f"--config.file={scrapes}", f"--storage.tsdb.path={folder}/data", f"--web.listen-address={PROMETHEUS_AT}"]
    server = subprocess.Popen(words, stdout=subprocess.DEVNULL, stderr=subprocess.DEVNULL)
    time.sleep(5)
    begin = time.time()
    load = minute_of_load(router)
    time.sleep(5)
    shown = samples(page())
    told = figures_told({name.partition("{")[0] for name in shown})
    expect(told == shown, f"the API gives the router's figures: {set(told.items()) ^ set(shown.items())}")
    expect(shown['router_output_pkts_total{interface="2"}'] == load.came, "and they are those of the packets")
    closed = shown['router_dropped_pkts_total{cause="16",reason="closed"}']
    expect(closed == load.sent - load.came, f"and of those that came to a closed link: {closed} of {load.sent - load.came}")
    pending = [one["metric"] for one in told_by_prometheus('ALERTS{alertname="RouterLinkClosed",alertstate="pending"}')]
    expect([one.get("interface") for one in pending] == ["2"], f"an alert of the closed link is pending: {pending}")
    scrapes = int(told_by_prometheus("count_over_time(up[2m])")[0]["value"][1])
    failed = int(scrapes - float(told_by_prometheus("sum_over_time(up[2m])")[0]["value"][1]))
    expect(scrapes > 60 and not failed, f"each scrape was answered: {failed} of {scrapes} weren't")
    if is_drawn:
        draw(begin, begin + 62)
    server.terminate()
    server.wait()
    report, _ = router.end()
    expect(is_in_report(shown, report), "the report is at least what was shown")
    print(f"prometheus: {scrapes} scrapes, {load.sent} packets, {load.came} crossed, {len(told)} figures equal")


def main():
    words = sys.argv[1:]
    program = os.path.abspath(words[-1] if words and not words[-1].startswith("-") else os.path.join(TOP, "bin", "router"))
    with tempfile.TemporaryDirectory() as folder:
        config = os.path.join(folder, "router.toml")
        with open(config, "w", encoding="ascii") as file:
            file.write(CONFIGURATION)
        faults_of_start(program, config)
        trial(program, config)
        if "--prometheus" in words:
            prometheus_trial(program, config, folder, "--picture" in words)
    print("all as it should be" if not faults else f"{faults} not so")
    sys.exit(faults != 0)


main()
