"""The clients of tests/load: 60 that store and fetch files, each on a connection and with paths of its own, and four operators.

Usage: tests/load_clients.py PORT PID MEDIA SECONDS

Each client knows which of its files are acknowledged, and with which SHA-256. What a reply says is held against that at once, and in the end
everything once more, as the head of tests/load says. To standard error it says what is wrong, and the figures. The status is 1 where something is wrong.

The weight of the history is counted in two ways. From above, for the pace: each ask is taken for the most that it can bring about, with a mount for
each file. From below, for the memory: what was acknowledged, and 3 for each item that tapes have more, for its Claim and its Flushed. What it is in
truth is found at the end, by stage requests that are so long that they still fit."""
import hashlib, http.client, json, os, pathlib, random, re, sys, threading, time, traceback

PORT, PID, MEDIA, SECONDS = int(sys.argv[1]), int(sys.argv[2]), pathlib.Path(sys.argv[3]), float(sys.argv[4])
CLIENTS = 60
BUFFER, HISTORY, MOST_USED = 4194304, 1000000, 800000
# The weight that the load may come to, counted from above. In truth it is half to three quarters of that, as mounts have more than one file, so
# that what fetching all files takes beside it stays below MOST_USED.
BUDGET = 950000
# The files of a client, and the bytes of them that it has staged at a time: those of all clients are less than the buffer.
FILES, STAGED = 100, 40000
SHARED = [f"/one/shared/{n}" for n in range(16)]
TAPES = [f"P{pool}-{n:02}" for pool in (1, 2) for n in range(1, 25)]
DRIVES = [f"d{n}" for n in range(1, 5)]
WAITING = ("SUBMITTED", "STARTED")
FAULTS = re.compile(r"(read fault on d\d P\d-\d\d)(; read fault on d\d P\d-\d\d)*")

lock = threading.Lock()
begun = time.monotonic()
wrong = 0
asked = longest = reopened = 0
counts = {}


def fail(text):
    global wrong
    with lock:
        wrong += 1
        if wrong <= 50:
            print(f"tests/load: FAILED: at {time.monotonic() - begun:.1f} s: {text}", file=sys.stderr, flush=True)


def expect(text, holds):
    if not holds:
        fail(text)
    return holds


class Pace:
    """Weight is spent at an even rate, and what was held up is made up for: `used` from above, `known` from below, and the items of tapes that
    were reclaimed."""

    def __init__(self):
        self.used, self.known, self.items = 0, 0, 0

    def spend(self, weight, waits=True):
        """Weight that will be spent, or, where it is negative, wasn't."""
        with lock:
            self.used += weight
            left = begun + self.used * SECONDS / BUDGET - time.monotonic()
        if waits and left > 0:
            time.sleep(min(left, 5))

    def know(self, weight):
        with lock:
            self.known += weight


pace = Pace()


class Link:
    """A connection that is kept: that it is closed, or a request not answered for 60 seconds, is wrong."""

    def __init__(self):
        self.link, self.asked = http.client.HTTPConnection("127.0.0.1", PORT, timeout=60), time.monotonic()

    def ask(self, method, path, body=None):
        """The status, and the body."""
        global asked, longest, reopened
        at = time.monotonic()
        # (no client is silent for so long, but on a machine with no time for it the server closes what it takes for idle)
        if at - self.asked > 8:
            self.link.close()
            with lock:
                reopened += 1
        silence, self.asked = at - self.asked, at
        try:
            self.link.request(method, path, body if body is None or isinstance(body, bytes) else json.dumps(body))
            reply = self.link.getresponse()
            found = reply.status, reply.read()
            if reply.will_close:
                fail(f"{method} {path}: {found[0]}, and the connection is closed")
        except (OSError, http.client.HTTPException) as error:
            fail(f"{method} {path}: {error!r} after {time.monotonic() - at:.1f} s, and {silence:.1f} s behind the last request")
            self.link.close()
            return 0, b""
        with lock:
            asked += 1
            longest = max(longest, time.monotonic() - at)
            key = f"{method} {kind_of(path)} {found[0]}"
            counts[key] = counts.get(key, 0) + 1
        return found

    def look(self, method, path, body=None):
        """The value that a request with status 200 or 201 tells, or None where it has another, which is wrong."""
        status, found = self.ask(method, path, body)
        if not expect(f"{method} {path}: {status} {found[:100]!r}", status in (200, 201)):
            return None
        return json.loads(found)

    def close(self):
        self.link.close()


def kind_of(path):
    """What a request is of, without names: `data`, `stage`, `cancel`."""
    words = path.strip("/").split("/")
    return words[0] if words[0] not in ("api", "admin") else " ".join(it for it in words[2:] if not re.fullmatch(r"[0-9a-f-]{36}|d\d|P\d-\d\d", it))


def content_of(dice):
    """Bytes of a file, mostly a few thousand."""
    return dice.randbytes(1 + dice.randrange(STAGED) if dice.random() < 0.05 else 1 + dice.randrange(8192))


def digest(content):
    return hashlib.sha256(content).digest()


class Client:
    """One that stores, fetches, stages and deletes files of its own, and a few of all clients."""

    def __init__(self, number):
        self.number, self.dice, self.link = number, random.Random(number), Link()
        self.files, self.request = {}, None

    def run(self):
        # (all connections are there from the beginning)
        self.link.look("GET", "/.well-known/wlcg-tape-rest-api")
        while not over.is_set():
            kind = self.dice.random()
            if kind < 0.30 and len(self.files) < FILES:
                self.put()
            elif kind < 0.50:
                self.get()
            elif kind < 0.56:
                self.info()
            elif kind < 0.60:
                self.shared()
            elif kind < 0.88:
                self.watch() if self.request else self.stage()
            else:
                self.delete()
        self.link.close()

    def one(self):
        return self.dice.choice(list(self.files)) if self.files else None

    def put(self):
        path = self.dice.choice(("/one", "/one", "/two")) + f"/{self.number}/{self.dice.randrange(2 * FILES)}"
        content = content_of(self.dice)
        copies = 2 if path.startswith("/two") else 1
        pace.spend(2 + 7 * copies)
        status, found = self.link.ask("PUT", "/data" + path, content)
        if path in self.files:
            expect(f"PUT of {path} that names a file: {status} {found!r}", (status, found) == (409, b'{"error":"path taken"}'))
        elif status == 201:
            self.files[path] = len(content), digest(content)
            pace.know(1)
            return
        else:
            expect(f"PUT of {path}: {status} {found[:100]!r}", (status, found) == (507, b'{"error":"no space"}'))
            time.sleep(0.05)
        pace.spend(-2 - 7 * copies, waits=False)

    def get(self):
        path = self.one()
        if path:
            status, found = self.link.ask("GET", "/data" + path)
            expect(f"GET of {path}: {status}, {len(found)} bytes", status == 200 and digest(found) == self.files[path][1] or (status, found) == (409, b'{"error":"not on disk"}'))

    def info(self):
        paths = [it for it in (self.one(), f"/one/{self.number}/none", self.one()) if it]
        found = self.link.look("POST", "/api/v1/archiveinfo", {"paths": paths})
        for path, it in zip(paths, found or []):
            good = it.get("locality") in ("DISK", "TAPE", "DISK_AND_TAPE") if path in self.files else it.get("error") == "no such file"
            expect(f"archiveinfo of {path}: {it}", good and it["path"] == path)

    def shared(self):
        """Clients meet at a path: what it names is always something that one of them sent."""
        path = self.dice.choice(SHARED)
        kind = self.dice.randrange(3)
        if kind == 0:
            content = content_of(self.dice)
            with lock:
                sent[path].add(digest(content))
            pace.spend(9)
            status, found = self.link.ask("PUT", "/data" + path, content)
            expect(f"PUT of {path}: {status}", status in (201, 409, 507))
            if status != 201:
                pace.spend(-9, waits=False)
        elif kind == 1:
            pace.spend(1)
            status, found = self.link.ask("DELETE", "/data" + path)
            expect(f"DELETE of {path}: {status}", status in (200, 404))
        else:
            status, found = self.link.ask("GET", "/data" + path)
            expect(f"GET of {path}: {status}", status in (404, 409) or status == 200 and digest(found) in sent[path])
        if kind < 2 and status in (200, 201):
            pace.know(1)

    def stage(self):
        paths, size = [], 0
        for path in self.dice.sample(list(self.files), min(len(self.files), 4)):
            if size + self.files[path][0] <= STAGED:
                paths.append(path)
                size += self.files[path][0]
        if not paths:
            return
        pace.spend(1 + 7 * len(paths))
        found = self.link.look("POST", "/api/v1/stage", {"files": [{"path": it, "diskLifetime": "PT2H"} for it in paths]})
        if found:
            pace.know(1 + len(paths))
            # (of each path whether it still names the file that was staged; then those that were cancelled, and those that were released)
            self.request = found["requestId"], {it: True for it in paths}, set(), set()

    def watch(self):
        """How the client's stage request stands; files that are there are fetched and released, and some are cancelled."""
        name, paths, cancelled, released = self.request
        url = f"/api/v1/stage/{name}"
        report = self.link.look("GET", url)
        if not report:
            self.request = None
            return
        expect(f"{url}: it tells {report}", report["id"] == name and {it["path"] for it in report["files"]} == set(paths))
        waits = False
        for it in report["files"]:
            path, state = it["path"], it["state"]
            whole = paths[path]
            if state in WAITING:
                waits = True
                expect(f"{url}: {path} is deleted or cancelled, and {state}", whole and path not in cancelled)
            elif state == "COMPLETED":
                if whole and path not in cancelled | released:
                    expect(f"{url}: {path} is completed, and not on disk", it["onDisk"])
                    status, found = self.link.ask("GET", "/data" + path)
                    expect(f"GET of {path}, which is staged: {status}, {len(found)} bytes", status == 200 and digest(found) == self.files[path][1])
            elif state == "CANCELLED":
                expect(f"{url}: {path} is cancelled by nobody", path in cancelled)
            elif state == "FAILED":
                said = it.get("error", "")
                expect(f"{url}: {path} failed with {said!r}", FAULTS.fullmatch(said) or said == "deleted" and not whole)
            else:
                fail(f"{url}: {path} is {state}")
        kind = self.dice.random()
        if not waits and kind < 0.5 or kind < 0.03:
            pace.spend(1)
            status, found = self.link.ask("DELETE", url)
            expect(f"DELETE of {url}: {status}", status == 200)
            pace.know(1)
            self.request = None
        elif kind < 0.15:
            path = self.dice.choice(list(paths))
            where, those = (f"{url}/cancel", cancelled) if self.dice.random() < 0.5 else (f"/api/v1/release/{name}", released)
            pace.spend(2)
            status, found = self.link.ask("POST", where, {"paths": [path]})
            expect(f"POST {where} of {path}: {status}", status == 200)
            pace.know(2)
            those.add(path)
        elif kind < 0.18:
            status, found = self.link.ask("POST", f"{url}/cancel", {"paths": [list(paths)[0], "/one/of/another"]})
            expect(f"cancel of a foreign path: {status} {found!r}", (status, found) == (400, b'{"error":"path not in request"}'))

    def delete(self):
        path = self.one()
        if path:
            pace.spend(1)
            status, found = self.link.ask("DELETE", "/data" + path)
            expect(f"DELETE of {path}: {status} {found[:100]!r}", status == 200)
            pace.know(1)
            del self.files[path]
            if self.request and path in self.request[1]:
                self.request[1][path] = False

    # When nobody puts any more: each file is staged, fetched, and let go.

    def fetch_all(self):
        self.link = Link()
        paths = sorted(self.files)
        while paths:
            some, size = [], 0
            while paths and size + self.files[paths[-1]][0] <= STAGED and len(some) < 10:
                some.append(paths.pop())
                size += self.files[some[-1]][0]
            found = self.link.look("POST", "/api/v1/stage", {"files": [{"path": it, "diskLifetime": "PT2H"} for it in some]})
            if not found:
                return
            url, left = f"/api/v1/stage/{found['requestId']}", set(some)
            end = time.monotonic() + 60
            while left and time.monotonic() < end:
                report = self.link.look("GET", url)
                for it in report["files"] if report else []:
                    if it["state"] in WAITING or it["path"] not in left:
                        continue
                    left.discard(it["path"])
                    status, found = self.link.ask("GET", "/data" + it["path"])
                    if expect(f"fetch of {it['path']}: {it['state']}, {it.get('error')}, {status}, {len(found)} bytes", status == 200 and digest(found) == self.files[it["path"]][1]):
                        with lock:
                            fetched.append(it["path"])
                if left:
                    time.sleep(0.05)
            expect(f"{url}: after 60 s {sorted(left)} are not there", not left)
            self.link.ask("DELETE", url)
        self.link.close()


def pause(link, seconds):
    """Waits, and looks now and then, since a connection that says nothing for 30 seconds is closed."""
    end = time.monotonic() + seconds
    while time.monotonic() < end and not over.wait(min(1, max(0, end - time.monotonic()))):
        link.look("GET", "/admin/v1/queues")


def repacks():
    """An operator who repacks one tape after another."""
    link, dice = Link(), random.Random("repacks")
    while not over.is_set():
        vid = dice.choice(TAPES)
        tape = link.look("GET", f"/admin/v1/tape/{vid}")
        if not tape or not tape["files"]:
            time.sleep(0.05)
            continue
        if until_free(link, f"/admin/v1/tape/{vid}/state", {"state": "REPACKING"}):
            repack(link, vid)
            # (a copy that failed, or whose item is still read, keeps the tape from being reclaimed; then it goes on as it is)
            with tapes_lock:
                tape = link.look("GET", f"/admin/v1/tape/{vid}")
                status, found = link.ask("POST", f"/admin/v1/tape/{vid}/reclaim")
                if status == 200:
                    pace.items += tape["nextFseq"] - 1
                    pace.know(1)
            expect(f"reclaim of {vid}: {status} {found!r}", status == 200 or status == 409 and found in (b'{"error":"tape has live files"}', b'{"error":"tape is mounted"}'))
            until_free(link, f"/admin/v1/tape/{vid}/state", {"state": "ACTIVE"}, ever=True)
        pause(link, SECONDS / 20)
    link.close()


def until_free(link, path, body, ever=False):
    """Asks again as long as the tape is mounted, for at most a minute: whether it was done."""
    end = time.monotonic() + 60
    while time.monotonic() < end and (ever or not over.is_set()):
        status, found = link.ask("POST", path, body)
        if status == 200:
            pace.know(1)
            return True
        if not expect(f"POST {path} {body}: {status} {found!r}", (status, found) == (409, b'{"error":"tape is mounted"}')):
            return False
        time.sleep(0.02)
    return False


def repack(link, vid):
    found = link.look("POST", "/admin/v1/repack", {"vid": vid})
    status, second = link.ask("POST", "/admin/v1/repack", {"vid": vid})
    if status == 201:
        pace.know(1)
    # (the first one has no items, or is done already)
    expect(f"a second repack of {vid}: {status} {second!r}", status == 201 or (status, second) == (409, b'{"error":"repack is live"}'))
    first = True
    while found:
        seen = link.look("GET", f"/admin/v1/repack/{found['repackId']}")
        if not seen:
            return
        states = [it["state"] for it in seen["items"]]
        if first:
            pace.spend(1 + sum(15 if it == "READING" else 9 for it in states), waits=False)
            pace.know(1 + len(states))
            first = False
        expect(f"repack of {vid}: {set(states)}", set(states) <= {"READING", "WRITING", "DONE", "GONE", "FAILED"})
        if over.is_set() or not {"READING", "WRITING"} & set(states):
            return
        time.sleep(0.1)


def retries():
    """An operator who has failed copies tried again, and sets drives down and up."""
    link, dice = Link(), random.Random("retries")
    while not over.is_set():
        retry(link)
        if dice.random() < 0.1:
            drive = dice.choice(DRIVES)
            for what in ("down", "up"):
                pace.spend(1)
                expect(f"{drive} {what}", link.ask("POST", f"/admin/v1/drive/{drive}/{what}")[0] == 200)
                pace.know(1)
        time.sleep(0.3)
    link.close()


def retry(link):
    failed = link.look("GET", "/admin/v1/failed") or []
    for it in failed:
        expect(f"a failed copy {it}", it["errors"] and all(re.fullmatch(r"(write|flush) fault on d\d P\d-\d\d", text) for text in it["errors"]))
    paths = sorted({it["path"] for it in failed})
    if paths:
        pace.spend(1 + 9 * len(paths))
        # (a path that was deleted meanwhile refuses the whole list)
        status, found = link.ask("POST", "/admin/v1/failed/retry", {"paths": paths})
        for path in paths if status == 404 else []:
            link.ask("POST", "/admin/v1/failed/retry", {"paths": [path]})
        expect(f"retry: {status} {found!r}", status in (200, 404))
    return len(paths)


def moves():
    """An operator who moves the folder of the media away and back, and sets the drives up that went down meanwhile."""
    link, away = Link(), MEDIA.with_name("away")
    for _ in range(8):
        pause(link, SECONDS / 9.5)
        if over.is_set():
            break
        pace.spend(500, waits=False)
        MEDIA.rename(away)
        time.sleep(0.3)
        away.rename(MEDIA)
        for drive in DRIVES * 2:
            expect(f"{drive} up", link.ask("POST", f"/admin/v1/drive/{drive}/up")[0] == 200)
            pace.know(1)
            time.sleep(0.1)
    pause(link, SECONDS)
    link.close()


def looks():
    """An operator who looks, and asks for what isn't there."""
    link = Link()
    while not over.is_set():
        if weighing.is_set():
            weights.append(pace.known + 3 * items_of(link))
            weighing.clear()
        for it in link.look("GET", "/admin/v1/queues") or []:
            expect(f"a queue {it}", it["files"] > 0 and it["direction"] in ("archive", "retrieve"))
        for method, path, status in (("GET", "/admin/v1/tape/NONE", 404), ("POST", "/admin/v1/drive/none/up", 404), ("GET", "/data/one/none", 404), ("GET", "/none", 404), ("PATCH", "/data/one/a", 405)):
            expect(f"{method} {path}", link.ask(method, path)[0] == status)
        time.sleep(0.5)
    weighing.clear()
    link.close()


def items_of(link):
    """How many items tapes were given so far."""
    with tapes_lock:
        seen = [link.look("GET", f"/admin/v1/tape/{vid}") for vid in TAPES]
        return pace.items + sum(it["nextFseq"] - 1 for it in seen if it)


def weighed():
    """The weight from below, by the operator who looks: no further connection would be answered."""
    weighing.set()
    end = time.monotonic() + 60
    while weighing.is_set() and time.monotonic() < end:
        time.sleep(0.05)
    expect("tapes are looked at for over 60 s", not weighing.is_set())
    return weights[-1] if weights else 0


def resident():
    """The bytes of memory that the server has."""
    return 1024 * int(re.search(r"VmRSS:\s+(\d+) kB", pathlib.Path(f"/proc/{PID}/status").read_text())[1])


over, weighing, tapes_lock = threading.Event(), threading.Event(), threading.Lock()
sent, fetched, weights = {it: set() for it in SHARED}, [], []


def together(runs):
    """Threads that run these; what ends one of them is wrong."""
    def guarded(run):
        try:
            run()
        except Exception:
            fail(traceback.format_exc())
    threads = [threading.Thread(target=guarded, args=(it,), daemon=True) for it in runs]
    for it in threads:
        it.start()
    return threads


def say(text):
    print(f"tests/load: at {time.monotonic() - begun:.0f} s: {text}", file=sys.stderr, flush=True)


def main():
    clients = [Client(n) for n in range(CLIENTS)]
    threads = together([it.run for it in clients] + [repacks, retries, moves, looks])
    time.sleep(SECONDS / 2)
    half, at_half = resident(), weighed()
    time.sleep(max(0, begun + SECONDS - time.monotonic()))
    full, at_end = resident(), weighed()
    over.set()
    for it in threads:
        it.join(90)
    expect("a client does not stop", not any(it.is_alive() for it in threads))
    say(f"{asked} requests in {SECONDS:.0f} s, the longest {longest:.2f} s, {reopened} connections made again; replies: " + ", ".join(f"{counts[it]} {it}" for it in sorted(counts)))
    grown = (full - half) / max(1, at_end - at_half)
    say(f"memory {half} and then {full} bytes, over a weight of at least {at_end - at_half}: {grown:.0f} bytes a unit")
    expect(f"memory grows by {grown:.0f} bytes a unit of weight", grown <= 1000)
    rests(clients)
    say(f"{wrong} wrong")
    sys.exit(wrong > 0)


def rests(clients):
    """What the server comes to when nobody asks any more."""
    link = Link()
    # (copies that failed and drives that are down stay so, whoever waits: an operator mends that)
    for drive in DRIVES:
        link.ask("POST", f"/admin/v1/drive/{drive}/up")
    again, begin = retry(link), time.monotonic()

    def within(text, holds):
        """Asks again until it holds, 60 seconds from the beginning at most; a queue may be empty while mounts still have claims."""
        while not (found := holds()) and time.monotonic() < begin + 60:
            time.sleep(0.1)
        expect(text, found)

    within("the queues are not [] after 60 s", lambda: link.look("GET", "/admin/v1/queues") == [])
    empty = time.monotonic() - begin
    paths = [path for it in clients for path in it.files]
    places = lambda: [it for at in range(0, len(paths), 500) for it in link.look("POST", "/api/v1/archiveinfo", {"paths": paths[at : at + 500]}) or []]
    expect("a file is not there", all(it.get("locality") in ("DISK", "TAPE", "DISK_AND_TAPE") for it in places()))
    within("a file is not on tape", lambda: all(it.get("locality") in ("TAPE", "DISK_AND_TAPE") for it in places()))
    shared = [it["path"] for it in link.look("POST", "/api/v1/archiveinfo", {"paths": SHARED}) if "locality" in it]
    for it in clients:
        if it.request:
            expect(f"drop of {it.request[0]}", link.ask("DELETE", f"/api/v1/stage/{it.request[0]}")[0] == 200)
    whole = random.Random("whole").randbytes(BUFFER)
    within("a PUT of the whole buffer does not fit", lambda: link.ask("PUT", "/data/one/whole", whole)[0] == 201)
    say(f"the queues are empty after {empty:.1f} s, and the whole buffer fits after {time.monotonic() - begin:.1f} s; {again} failed copies were tried again")
    status, found = link.ask("GET", "/data/one/whole")
    expect(f"GET of the whole buffer: {status}", status == 200 and found == whole)
    expect("copies have failed", link.look("GET", "/admin/v1/failed") == [])
    for vid in TAPES:
        expect(f"{vid} isn't ACTIVE", link.look("GET", f"/admin/v1/tape/{vid}")["state"] == "ACTIVE")
    link.close()
    begin = time.monotonic()
    for it in together([it.fetch_all for it in clients]):
        it.join(600)
    link = Link()
    for path in shared:
        status, found = fetch(link, path)
        expect(f"fetch of {path}: {status}", status == 200 and digest(found) in sent[path])
    expect(f"{len(fetched)} of {len(paths)} files were fetched", len(fetched) == len(paths))
    say(f"{len(fetched)} files fetched with their SHA-256, and {len(shared)} shared ones, in {time.monotonic() - begin:.0f} s")
    weigh(link)
    link.close()


def fetch(link, path):
    found = link.look("POST", "/api/v1/stage", {"files": [{"path": path}]})
    for _ in range(600):
        status, content = link.ask("GET", "/data" + path)
        if status != 409:
            break
        time.sleep(0.05)
    link.ask("DELETE", f"/api/v1/stage/{found['requestId']}")
    return status, content


def weigh(link):
    """The weight that is left: a stage request of so many names fits or not. First one that fits where at most MOST_USED is used."""
    def fits(weight):
        status, found = link.ask("POST", "/api/v1/stage", {"files": (weight - 1) * [{"path": "/a"}]})
        expect(f"a stage request of {weight - 1} names: {status} {found[:100]!r}", status == 201 or (status, found) == (503, b'{"error":"history is full"}'))
        return status == 201
    left = HISTORY - MOST_USED
    if not expect(f"more than {MOST_USED} of the weight is used", fits(left)):
        left = 0
    for power in (17, 17, 17, 17, 17, 17, *range(16, 0, -1)):
        if fits(2**power):
            left += 2**power
    say(f"the load and the fetches weigh {HISTORY - left} or one less; from above the load was taken for {pace.used}")
    status, found = link.ask("PUT", "/data/one/last", b"last")
    status, found = link.ask("PUT", "/data/one/more", b"more")
    expect(f"PUT beside a full history: {status} {found!r}", (status, found) == (503, b'{"error":"history is full"}'))
    expect("a look beside a full history", link.look("GET", "/admin/v1/queues") is not None)


main()
