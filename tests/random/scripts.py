"""A random site and script, and what `cta replay` is to write for them."""

import json
import random

from archive import Archive, Wanted, ask
from drives import Drive
from replies import message, reply_to

PATHS = ["/atlas/" + c for c in "abcdef"] + ["/hot/g", "/hot/h"]
TAPE_ASKS = ("TapeState", "Reclaim", "Repack", "RepackInfo")
STATES = ("ACTIVE", "ACTIVE", "ACTIVE", "ACTIVE", "REPACKING", "REPACKING", "DISABLED", "DISABLED", "BROKEN")


def a_site(r):
    copies, drives, tapes = r.choice((1, 1, 2, 2, 3)), r.choice((1, 1, 2, 3)), r.randint(1, 3)
    libraries = ["L1", "L2"][: r.choice((1, 1, 1, 2))]
    pools = [f"p{k}" for k in range(1, copies + 1)]
    buffer = r.choice((8, 10, 12, 16))
    policy = lambda name: {"name": name} | {way + "Priority": r.randint(0, 2) for way in ("archive", "retrieve")} | {way + "MinAge": r.choice((0, 0, 5, 40)) for way in ("archive", "retrieve")}
    site = {
        "version": 1, "sitename": "random", "endpoint": "https://tape.example.org/api/v1", "defaultPolicy": "std", "repackPolicy": r.choice(("std", "fast")),
        "limits": {
            "buffer": buffer, "file": buffer, "tries": r.randint(1, 3), "batchFiles": r.choice((1, 2, 10)), "history": r.choice((1000, 1000, 1000, 40)),
            "lifetime": r.choice((0, 20, 60)), "archiveBytes": r.choice((1, 8, 20)), "archiveFiles": r.choice((1, 2, 3)),
            "retrieveBytes": r.choice((1, 8, 20)), "retrieveFiles": r.choice((1, 2)),
        },
        "vos": [{"name": "atlas", "readDrives": r.randint(1, 2), "writeDrives": r.randint(1, 2)}, {"name": "cms", "readDrives": 1, "writeDrives": 1}],
        "classes": [{"name": "raw", "vo": "atlas", "copies": copies}, {"name": "hot", "vo": "cms", "copies": 1}],
        "pools": [{"name": p, "vo": "atlas"} for p in pools] + [{"name": "q", "vo": "cms"}],
        "routes": [{"class": "raw", "copy": k + 1, "pool": p} for k, p in enumerate(pools)] + [{"class": "hot", "copy": 1, "pool": "q"}],
        "policies": [policy("std"), policy("fast"), policy("slow")],
        "rules": r.sample([{"kind": "requester", "name": "ann", "policy": "fast"}, {"kind": "group", "name": "prod", "policy": "slow"}, {"kind": "group", "name": "ann", "policy": "std"}], r.randint(0, 3)),
        "libraries": libraries,
        "tapes": [{"vid": f"V{p}{k}", "pool": p, "library": r.choice(libraries), "capacity": r.choice((8, 40, 100, 100)), "state": r.choice(("ACTIVE",) * 12 + STATES)} for p in pools + ["q"] for k in range(1, tapes + 1)],
        "drives": [{"name": f"d{k}", "library": r.choice(libraries)} for k in range(1, drives + 1)],
        "directories": [{"path": "/atlas", "class": "raw"}, {"path": "/hot", "class": "hot"}],
        "failures": [],
    }
    site["failures"] = some_failures(r, site)
    return site


def some_failures(r, site):
    planned = {}
    for _ in range(r.choice((0, 1, 2, 4, 8))):
        call, number, drive = r.choice(("load", "write", "flush", "read", "read", "read", "unload")), r.randint(1, 4), r.choice(site["drives"])["name"]
        planned[call, number, drive] = call == "read" and r.random() < 0.4
    return [{"call": call, "number": number, "drive": drive} | ({"alter": True} if alters else {}) for (call, number, drive), alters in planned.items()]


class Script:
    """Makes a script record by record, and keeps what is to be written: a request is answered at the record that has its last byte."""

    def __init__(self, seed):
        self.r = random.Random(seed)
        self.site = a_site(self.r)
        self.archive = Archive(self.site)
        self.tapes = {}
        self.drives = [Drive(d["name"], self.archive, self.tapes) for d in self.site["drives"]]
        self.at, self.script, self.out, self.met = 100, b"", b"", set()
        self.rest = {}
        for _ in range(self.r.choice((20, 60, 100, 160))):
            self.one()
        if self.r.random() < 0.8:
            self.finish()
        self.script += b"end\n"

    def one(self):
        r = self.r
        self.at = max(0, self.at + r.choice((0, 0, 0, 0, 1, 10, 30, -5)))
        some = r.random()
        if some < 0.36:
            self.send(self.a_question())
        elif some < 0.46:
            self.flood()
        elif some < 0.54:
            self.repack()
        elif some < 0.59:
            self.change()
        else:
            self.work()

    def work(self):
        """A drive makes some steps, and where it reads then perhaps what it reads is cancelled."""
        drive = self.r.choice(self.drives)
        for _ in range(self.r.choice((1, 3, 8))):
            self.step(drive)
        if drive.state == "reading" and self.r.random() < 0.3:
            self.send(ask("Cancel", *self.some_Cancel()))
            self.step(drive)

    def go_on(self):
        """Perhaps drives work."""
        for _ in range(self.r.choice((0, 0, 2, 6))):
            self.work()

    def flood(self):
        """A file as large as all that is free or may be evicted comes and goes, so that files are on tape alone."""
        n = len(self.archive)
        size = min(self.archive.room(n, self.archive.moment(self.at)), self.site["limits"]["file"])
        self.send(ask("Put", "/hot/flood", b"f" * max(size, 0)))
        self.send(ask("Delete", "/hot/flood"))

    def filled(self):
        """A tape that has something, if there is one."""
        n = len(self.archive)
        vids = [t["vid"] for t in self.site["tapes"] if self.archive.live_items_on(n, t["vid"])]
        return self.r.choice(vids) if vids else self.vid()

    def repack(self):
        """A tape that has something is repacked, if it may be, perhaps once its files are on tape alone. Perhaps it is reclaimed then."""
        vid = self.filled()
        if self.r.random() < 0.5:
            self.flood()
        self.send(ask("TapeState", vid, "REPACKING"))
        self.send(ask("Repack", vid))
        self.go_on()
        self.send(self.r.choice((ask("Reclaim", vid), ask("RepackInfo", *self.some_RepackInfo()))))

    def change(self):
        """A tape that has something changes its state, perhaps once its files are on tape alone and drives read some of them."""
        vid = self.filled()
        if self.r.random() < 0.7:
            self.flood()
        if self.r.random() < 0.7:
            self.send(ask("Stage", *self.some_Stage()))
            self.go_on()
        self.send(ask("TapeState", vid, self.r.choice(STATES)))
        self.send(self.r.choice((ask("ArchiveInfo", PATHS), ask("Queues"), ask("StageInfo", *self.some_StageInfo()))))

    def step(self, drive):
        self.script += f"step {drive.name} {self.at}\n".encode()
        words = drive.step(self.at)
        self.out += f"step {drive.name} {words}\n".encode()
        self.met.add("step " + (words if words == "claim 0" else " ".join(w for w in words.split() if w.islower())))

    def record(self, link, part):
        self.script += f"http {link} {self.at} {len(part)}\n".encode() + part + b"\n"

    def send(self, question):
        """Sends a request on a link, perhaps but a part of it, whose rest then comes before the next request on that link."""
        link = self.r.randint(0, 1)
        self.complete(link)
        who = (self.r.choice(("", "", "ann", "bob")), self.r.choice(("", "prod", "ann")))
        text = message(who, question)
        cut = self.r.randrange(1, len(text)) if self.r.random() < 0.2 else len(text)
        self.rest[link] = (text[cut:], who, question)
        self.record(link, text[:cut])
        if cut == len(text):
            self.answer(link)

    def complete(self, link):
        if link in self.rest:
            text = self.rest[link][0]
            cut = self.r.randrange(1, len(text)) if len(text) > 1 and self.r.random() < 0.5 else 0
            if cut:
                self.record(link, text[:cut])
            self.record(link, text[cut:])
            self.answer(link)

    def answer(self, link):
        _, who, question = self.rest.pop(link)
        text = reply_to(self.archive, self.at, who, question)
        self.out += f"reply {link} {len(text)}\n".encode() + text + b"\n"
        self.note(question, text.decode(errors="replace"))

    def note(self, question, text):
        """What was met: the ask with its status, and each error, locality and state, states with the look that tells them."""
        self.met.add(f"{question.kind} {text.split()[1]}")
        for word in ("error", "locality", "state"):
            for part in text.split(f'"{word}":"')[1:]:
                told = part.split('"')[0]
                self.met.add(f"{question.kind} {told}" if word == "state" or question.kind in TAPE_ASKS else f"{word} {told}")

    def finish(self):
        """All that is cut is sent, and each report is asked for once."""
        for link in list(self.rest):
            self.complete(link)
        made = [k for k in range(1, len(self.archive) + 1) if self.archive.entry(k).ask.kind in ("Stage", "Repack")]
        looks = [ask("ArchiveInfo", PATHS), ask("Queues"), ask("FailedList")] + [ask("TapeInfo", t["vid"]) for t in self.site["tapes"]]
        looks += [ask("StageInfo" if self.archive.entry(k).ask.kind == "Stage" else "RepackInfo", k) for k in made]
        for look in looks:
            self.rest[0] = (b"", ("", ""), look)
            self.record(0, message(("", ""), look))
            self.answer(0)

    # ---- what is asked

    def a_question(self):
        kind = self.r.choice(KINDS)
        return ask(kind, *getattr(self, "some_" + kind)())

    def path(self):
        return self.r.choice(PATHS) if self.r.random() < 0.97 else self.r.choice(("/x", "/atlas/../a", "/other/a"))

    def paths(self):
        return [self.path() for _ in range(self.r.choice((1, 1, 2, 4)))]

    def id(self, kind):
        """The number of a request or repack, mostly of one that was made."""
        made = [k for k in range(1, len(self.archive) + 1) if self.archive.entry(k).ask.kind == kind]
        return self.r.choice(made) if made and self.r.random() < 0.9 else self.r.randint(0, 30)

    def vid(self):
        return self.r.choice(self.site["tapes"])["vid"] if self.r.random() < 0.95 else "V0"

    def drive(self):
        down = [d.name for d in self.drives if self.archive.is_down(len(self.archive), d.name)] or [d.name for d in self.drives]
        return self.r.choice(down) if self.r.random() < 0.95 else "d0"

    def some_Put(self):
        size = self.r.choice((0, 1, 1, 2, 2, 3, 5))
        return self.path(), bytes(self.r.choice(b"abcdef") for _ in range(size))

    def some_Stage(self):
        n = len(self.archive)
        files = [self.archive.named(n, p) for p in PATHS]
        away = [self.archive.path_of(f) for f in files if f and not self.archive.is_resident(n, f)]
        paths = self.r.sample(away, self.r.randint(1, len(away))) if away and self.r.random() < 0.8 else self.paths()
        return [[Wanted(p, self.r.choice((None, None, 0, 5, 100))) for p in paths]]

    def waiting(self):
        """What waits for a recall, of those that were claimed if there are any: (request, path)."""
        n = len(self.archive)
        requests = [(k, self.archive.request(n, k) or ()) for k in range(1, n + 1)]
        started = [(k, s.path) for k, files in requests for s in files if s.state == "STARTED"]
        return started or [(k, s.path) for k, files in requests for s in files if s.state == "SUBMITTED"]

    def some_Cancel(self):
        waiting, id = self.waiting(), self.id("Stage")
        files = self.archive.request(len(self.archive), id)
        if waiting and self.r.random() < 0.6:
            id, path = self.r.choice(waiting)
            return id, [path]
        if files and self.r.random() < 0.8:
            return id, [self.r.choice(files).path for _ in range(self.r.randint(1, 2))]
        return id, self.paths()

    some_Release = some_Cancel

    def some_DropStage(self):
        return (self.id("Stage"),)

    some_StageInfo = some_DropStage

    def some_RepackInfo(self):
        return (self.id("Repack"),)

    def some_DriveUp(self):
        return (self.drive(),)

    some_DriveDown = some_DriveUp

    def some_TapeState(self):
        keys = [q.key for q in self.archive.queues(len(self.archive)) if q.way == "retrieve"]
        return self.r.choice(keys) if keys and self.r.random() < 0.5 else self.vid(), self.r.choice(STATES)

    def some_Reclaim(self):
        return (self.vid(),)

    some_Repack = some_TapeInfo = some_Reclaim

    def some_Retry(self):
        return (self.paths(),)

    some_ArchiveInfo = some_Retry

    def some_Delete(self):
        waiting = self.waiting()
        return (self.r.choice(waiting)[1] if waiting and self.r.random() < 0.3 else self.path(),)

    def some_Fetch(self):
        return (self.path(),)

    def some_FailedList(self):
        return ()

    some_Queues = some_FailedList


def kinds(weights):
    return [kind for kind, count in weights.items() for _ in range(count)]


KINDS = kinds({
    "Put": 16, "Stage": 16, "Delete": 3, "Cancel": 3, "Release": 2, "DropStage": 1, "DriveUp": 6, "DriveDown": 1, "TapeState": 4, "Reclaim": 2,
    "Repack": 1, "Retry": 3, "Fetch": 3, "StageInfo": 4, "ArchiveInfo": 4, "RepackInfo": 3, "FailedList": 1, "TapeInfo": 2, "Queues": 1,
})


def site_text(site):
    return json.dumps(site, sort_keys=True).encode()
