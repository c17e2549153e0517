"""The archive as a plain program: it keeps the list of entries and nothing else, and finds every answer by going through the list.

Entries are numbered from 1. Most functions take n and speak of the first n entries. A file is the number of its Put, a mount that of its
Next, a stage request or a repack that of its entry, and a job is (birth, file, copy), copy 0 for a recall. Drives, tapes and pools are
named by their names. docs/RULES.md states each rule.
"""

from collections import namedtuple

Entry = namedtuple("Entry", "at who ask answer")
Ask = namedtuple("Ask", "kind values")
Item = namedtuple("Item", "job fseq")
Wanted = namedtuple("Wanted", "path lifetime")
StageFile = namedtuple("StageFile", "path file state started finished error released lifetime")
Recall = namedtuple("Recall", "birth waiting named")
Queue = namedtuple("Queue", "way key jobs")

ARCHIVE, RETRIEVE = "archive", "retrieve"
READABLE = ("ACTIVE", "REPACKING")
NEVER_FULL = ("Flushed", "Recalled", "Failed", "End")
NO_ENTRY = ("Idle", "DriveDown", "DriveBusy", "Nothing")


def ask(kind, *values):
    return Ask(kind, values)


def is_accepted(answer):
    return answer[0] not in NO_ENTRY and answer[0] != "Refused"


def refused(why):
    return ("Refused", why)


def distinct(values):
    return list(dict.fromkeys(values))


def cached(function):
    """What is said of the first n entries stays so, since entries are only added; so it is found once."""
    def found(self, *of):
        key = (function.__name__,) + of
        if key not in self.known:
            self.known[key] = function(self, *of)
        return self.known[key]
    return found


class Archive:
    def __init__(self, site):
        self.site = site
        self.entries = []
        self.limits = site["limits"]
        self.known = {}

    def __len__(self):
        return len(self.entries)

    def entry(self, k):
        return self.entries[k - 1]

    def moment(self, at):
        return max(at, self.entries[-1].at) if self.entries else at

    def ask(self, at, who, question):
        """The answer; an accepted ask is kept as an entry."""
        now = self.moment(at)
        answer = self.answer(now, who, question)
        if is_accepted(answer):
            weight = self.weight(len(self)) + weight_of(question, answer)
            if question.kind not in NEVER_FULL and weight > self.limits["history"]:
                return refused("history is full")
            self.entries.append(Entry(now, who, question, answer))
        return answer

    @cached
    def weight(self, n):
        return 0 if n == 0 else self.weight(n - 1) + weight_of(self.entry(n).ask, self.entry(n).answer)

    # ---- files and paths

    def class_of(self, path):
        under = [d for d in self.site["directories"] if path.startswith(d["path"] + "/")]
        if not under:
            return None
        name = max(under, key=lambda d: len(d["path"]))["class"]
        return next(c for c in self.site["classes"] if c["name"] == name)

    @cached
    def named(self, n, path):
        """The file that a path names, or None."""
        for k in range(n, 0, -1):
            question = self.entry(k).ask
            if question.kind == "Put" and question.values[0] == path:
                return k
            if question.kind == "Delete" and question.values[0] == path:
                return None
        return None

    def path_of(self, file):
        return self.entry(file).ask.values[0]

    def content_of(self, file):
        return self.entry(file).ask.values[1]

    def size_of(self, file):
        return len(self.content_of(file))

    def is_live(self, n, file):
        return self.named(n, self.path_of(file)) == file

    def copies_of(self, file):
        return range(1, self.class_of(self.path_of(file))["copies"] + 1)

    def files(self, n):
        return [k for k in range(1, n + 1) if self.entry(k).ask.kind == "Put"]

    # ---- tapes and places

    def tape(self, vid):
        return next(t for t in self.site["tapes"] if t["vid"] == vid)

    def tape_state(self, n, vid):
        for k in range(n, 0, -1):
            question = self.entry(k).ask
            if question.kind == "TapeState" and question.values[0] == vid:
                return question.values[1]
        return self.tape(vid)["state"]

    @cached
    def flushed(self, n):
        """All that was flushed: (entry, tape, item, fate)."""
        found = []
        for k in range(1, n + 1):
            e = self.entry(k)
            if e.ask.kind == "Flushed":
                mount, items = e.ask.values
                found += [(k, self.mount(mount)[1], i, fate) for i, fate in zip(items, e.answer[1])]
        return found

    def tape_items(self, n, vid):
        """What was flushed on a tape since its last Reclaim."""
        since = max([k for k in range(1, n + 1) if self.entry(k).ask == ask("Reclaim", vid)], default=0)
        return [i for k, v, i, _ in self.flushed(n) if v == vid and k > since]

    def place(self, n, file, copy):
        """Tape and fSeq of the last item of the copy that was flushed and not stale, while the file is live."""
        if not self.is_live(n, file):
            return None
        found = [(v, i.fseq) for _, v, i, fate in self.flushed(n) if i.job[1:] == (file, copy) and fate == "Done"]
        return found[-1] if found else None

    @cached
    def places(self, n, file):
        """The places on tapes that aren't BROKEN, by copy."""
        found = [self.place(n, file, c) for c in self.copies_of(file)]
        return [p for p in found if p and self.tape_state(n, p[0]) != "BROKEN"]

    def was_flushed(self, n, file, copy):
        return any(i.job[1:] == (file, copy) and fate == "Done" for _, _, i, fate in self.flushed(n))

    def is_taped(self, n, file):
        return all(self.was_flushed(n, file, c) for c in self.copies_of(file))

    def live_items_on(self, n, vid):
        """The copies of live files that have their place on a tape, by fSeq: (fSeq, file, copy)."""
        found = []
        for f in self.files(n):
            for c in self.copies_of(f):
                p = self.place(n, f, c)
                if p and p[0] == vid:
                    found.append((p[1], f, c))
        return sorted(found)

    def used(self, n, vid):
        written = sum(self.size_of(i.job[1]) for i in self.tape_items(n, vid))
        claimed = sum(self.size_of(i.job[1]) for m in self.open_mounts(n) if self.mount(m)[1:] == (vid, ARCHIVE) for i in self.claimed(n, m))
        return written + claimed

    # ---- drives and mounts

    def mount(self, m):
        """Drive, tape and direction of a mount."""
        e = self.entry(m)
        return e.ask.values[0], e.answer[3], e.answer[2]

    @cached
    def open_mounts(self, n):
        ended = {self.entry(k).ask.values[0] for k in range(1, n + 1) if self.entry(k).ask.kind == "End"}
        return [k for k in range(1, n + 1) if self.entry(k).ask.kind == "Next" and k not in ended]

    def is_mounted(self, n, vid):
        return any(self.mount(m)[1] == vid for m in self.open_mounts(n))

    def is_down(self, n, drive):
        for k in range(n, 0, -1):
            kind, values = self.entry(k).ask
            if kind in ("DriveUp", "DriveDown") and values[0] == drive:
                return kind == "DriveDown"
            if kind == "End" and values[1] and self.mount(values[0])[0] == drive:
                return True
        return False

    @cached
    def claimed(self, n, m):
        """The items that a mount claims."""
        items = []
        for k in range(m, n + 1):
            kind, values = self.entry(k).ask
            if values and values[0] == m:
                if kind == "Claim":
                    items += self.entry(k).answer[1]
                elif kind == "Flushed":
                    items = without(items, [i.job for i in values[1]])
                elif kind == "Recalled":
                    items = without(items, [values[1]])
                elif kind == "Failed":
                    items = without(items, values[2] + values[3])
        return items

    @cached
    def claimed_jobs(self, n):
        return {i.job for m in self.open_mounts(n) for i in self.claimed(n, m)}

    # ---- jobs

    @cached
    def charges(self, n, job):
        """The charges of a job in order: (drive, tape, fault)."""
        found = []
        for k in range(1, n + 1):
            kind, values = self.entry(k).ask
            if kind == "Failed" and job in values[2]:
                drive, vid, _ = self.mount(values[0])
                found.append((drive, vid, values[1]))
        return found

    def ends_by_charge(self, k, job):
        question = self.entry(k).ask
        return question.kind == "Failed" and job in question.values[2] and len(self.charges(k, job)) == self.limits["tries"]

    def files_waited_for(self, k):
        """The files for which a Stage or a Repack waits, if its entry is one."""
        e = self.entry(k)
        if e.ask.kind == "Stage":
            return [f for f in (self.named(k - 1, w.path) for w in e.ask.values[0]) if f]
        if e.ask.kind == "Repack":
            return [f for _, f, _ in e.answer[2]]
        return []

    @cached
    def recall(self, n, file):
        """The live recall of a file, or None."""
        if n < file:
            return None
        r, kind, values = self.recall(n - 1, file), *self.entry(n).ask
        if r is None:
            bears = file in self.files_waited_for(n) and not self.is_resident(n - 1, file) and self.places(n - 1, file)
            return Recall(n, (n,), False) if bears else None
        job = (r.birth, file, 0)
        if file in self.files_waited_for(n):
            return r._replace(waiting=r.waiting + (n,))
        if kind == "Claim" and any(i.job == job for i in self.entry(n).answer[1]):
            return r._replace(named=True)
        if kind == "Cancel" and values[0] in r.waiting and file in self.cancelled_files(values):
            r = r._replace(waiting=tuple(w for w in r.waiting if w != values[0]))
        if kind == "DropStage":
            r = r._replace(waiting=tuple(w for w in r.waiting if w != values[0]))
        ended = not r.waiting or self.ends_by_charge(n, job) or (kind == "Recalled" and values[1] == job) or not self.is_live(n, file)
        lost = kind == "TapeState" and not self.places(n, file)
        return None if ended or lost else r

    def cancelled_files(self, values):
        return [self.named(values[0] - 1, p) for p in values[1]]

    @cached
    def archive_births(self, k):
        """The archive jobs that an entry bears."""
        kind, values = self.entry(k).ask
        if kind == "Put":
            return [(k, k, c) for c in self.copies_of(k)]
        if kind == "Retry":
            return self.entry(k).answer[1]
        if kind == "Repack":
            return [(k, f, c) for _, f, c in self.entry(k).answer[2] if self.is_resident(k - 1, f)]
        if kind == "Recalled" and self.entry(k).answer[1] == "Done":
            file = values[1][1]
            moved = {c for w in self.recall(k - 1, file).waiting if self.entry(w).ask.kind == "Repack" for _, f, c in self.entry(w).answer[2] if f == file}
            return [(k, file, c) for c in sorted(moved)]
        return []

    @cached
    def archive_birth(self, n, file, copy):
        """The birth of the live archive job of a copy, or None."""
        if n < file:
            return None
        for job in self.archive_births(n):
            if job[1:] == (file, copy):
                return n
        birth = self.archive_birth(n - 1, file, copy)
        if birth is None:
            return None
        job, question = (birth, file, copy), self.entry(n).ask
        flushed = question.kind == "Flushed" and any(i.job == job for i in question.values[1])
        return None if flushed or self.ends_by_charge(n, job) or not self.is_live(n, file) else birth

    def is_live_job(self, n, job):
        birth, file, copy = job
        if copy:
            return self.archive_birth(n, file, copy) == birth
        r = self.recall(n, file)
        return r is not None and r.birth == birth

    @cached
    def live_jobs(self, n):
        """All live jobs in order of birth."""
        found = []
        for f in self.files(n):
            r = self.recall(n, f)
            found += [(r.birth, f, 0)] if r else []
            found += [(self.archive_birth(n, f, c), f, c) for c in self.copies_of(f) if self.archive_birth(n, f, c)]
        return sorted(found)

    # ---- queues

    def sources(self, n, file):
        places = self.places(n, file)
        return [p for p in places if self.tape_state(n, p[0]) in READABLE] or places

    def key_of(self, n, job):
        _, file, copy = job
        if copy:
            name = self.class_of(self.path_of(file))["name"]
            return next(r["pool"] for r in self.site["routes"] if (r["class"], r["copy"]) == (name, copy))
        sources = self.sources(n, file)
        return sources[len(self.charges(n, job)) % len(sources)][0]

    @cached
    def queues(self, n):
        """The queues that aren't empty: those of pools by name, then those of tapes by VID."""
        waiting = {}
        for job in self.live_jobs(n):
            if job not in self.claimed_jobs(n):
                way = ARCHIVE if job[2] else RETRIEVE
                waiting.setdefault((way, self.key_of(n, job)), []).append(job)
        return [Queue(way, key, jobs) for (way, key), jobs in sorted(waiting.items())]

    def queue(self, n, way, key):
        return next((q.jobs for q in self.queues(n) if (q.way, q.key) == (way, key)), [])

    def policy_of(self, job):
        e = self.entry(job[0])
        name = self.site["defaultPolicy"]
        if e.ask.kind in ("Repack", "Recalled"):
            name = self.site["repackPolicy"]
        elif e.ask.kind in ("Put", "Stage"):
            rules = {(r["kind"], r["name"]): r["policy"] for r in self.site.get("rules", [])}
            name = rules.get(("requester", e.who[0])) or rules.get(("group", e.who[1])) or name
        return next(p for p in self.site["policies"] if p["name"] == name)

    # ---- the buffer

    @cached
    def residents(self, n):
        """The resident files by arrival."""
        if n == 0:
            return []
        e, files = self.entry(n), self.residents(n - 1)
        gone = {"Put": e.answer[1:2], "Claim": e.answer[2:3]}.get(e.ask.kind, [])
        gone = [self.named(n - 1, e.ask.values[0])] if e.ask.kind == "Delete" else sum(gone, [])
        files = [f for f in files if f not in gone]
        if e.ask.kind == "Put":
            files.append(n)
        if e.ask.kind == "Recalled" and e.answer[1] == "Done":
            files.append(e.ask.values[1][1])
        return files

    def is_resident(self, n, file):
        return file in self.residents(n)

    def free(self, n):
        aside = sum(self.size_of(job[1]) for job in self.claimed_jobs(n) if job[2] == 0)
        return self.limits["buffer"] - aside - sum(self.size_of(f) for f in self.residents(n))

    def is_pinned(self, n, t, file):
        for k in range(1, n + 1):
            kind = self.entry(k).ask.kind
            if kind == "Stage":
                for s in self.request(n, k) or []:
                    lifetime = self.limits["lifetime"] if s.lifetime is None else s.lifetime
                    if s.file == file and s.state == "COMPLETED" and not s.released and s.finished + lifetime > t:
                        return True
            if kind == "Repack" and any(f == file and state in ("READING", "WRITING") for f, _, state in self.repack(n, k)):
                return True
        return False

    def evictable(self, n, t):
        """The files that may be evicted, by arrival."""
        found = []
        for f in self.residents(n):
            safe = self.is_taped(n, f) and self.places(n, f) and not any(self.archive_birth(n, f, c) for c in self.copies_of(f))
            if safe and not self.is_pinned(n, t, f):
                found.append(f)
        return found

    def room(self, n, t):
        return self.free(n) + sum(self.size_of(f) for f in self.evictable(n, t))

    def evicted_for(self, n, t, need):
        """The shortest prefix of what may be evicted that makes room for a need."""
        free, gone = self.free(n), []
        for f in self.evictable(n, t):
            if free >= need:
                break
            free += self.size_of(f)
            gone.append(f)
        return gone

    # ---- the choice

    def open_of(self, n, way, key):
        """How many open mounts a queue has."""
        mounts = [self.mount(m) for m in self.open_mounts(n)]
        return sum(1 for _, vid, w in mounts if w == way and (self.tape(vid)["pool"] if way == ARCHIVE else vid) == key)

    def is_warranted(self, n, t, queue):
        word = queue.way
        count = self.open_of(n, queue.way, queue.key)
        size = sum(self.size_of(j[1]) for j in queue.jobs)
        age = min(self.policy_of(j)[word + "MinAge"] for j in queue.jobs)
        old = count == 0 and t - self.entry(queue.jobs[0][0]).at >= age
        return size >= (count + 1) * self.limits[word + "Bytes"] or len(queue.jobs) >= (count + 1) * self.limits[word + "Files"] or old

    def within_quota(self, n, way, pool):
        vo = {p["name"]: p["vo"] for p in self.site["pools"]}
        mounts = [self.mount(m) for m in self.open_mounts(n)]
        count = sum(1 for _, vid, w in mounts if w == way and vo[self.tape(vid)["pool"]] == vo[pool])
        quota = next(v for v in self.site["vos"] if v["name"] == vo[pool])["writeDrives" if way == ARCHIVE else "readDrives"]
        return count < quota

    def tape_for(self, n, t, drive, queue):
        """The tape that a drive would mount for a queue, or None where the queue doesn't fit the drive."""
        library = next(d for d in self.site["drives"] if d["name"] == drive)["library"]
        least = min(self.size_of(j[1]) for j in queue.jobs)
        if queue.way == RETRIEVE:
            tape = self.tape(queue.key)
            fits = self.tape_state(n, queue.key) in READABLE and tape["library"] == library and not self.is_mounted(n, queue.key)
            return queue.key if fits and self.within_quota(n, RETRIEVE, tape["pool"]) and least <= self.room(n, t) else None
        if not self.within_quota(n, ARCHIVE, queue.key):
            return None
        fitting = []
        for tape in self.site["tapes"]:
            vid = tape["vid"]
            mine = tape["pool"] == queue.key and tape["library"] == library and self.tape_state(n, vid) == "ACTIVE"
            if mine and not self.is_mounted(n, vid) and least <= tape["capacity"] - self.used(n, vid):
                fitting.append((self.used(n, vid) == 0, vid))
        return min(fitting)[1] if fitting else None

    def choice(self, n, t, drive):
        """Direction and tape of the first of all warranted queues that fit a drive, or None."""
        candidates = []
        for q in self.queues(n):
            vid = self.tape_for(n, t, drive, q) if self.is_warranted(n, t, q) else None
            if vid:
                priority = max(self.policy_of(j)[q.way + "Priority"] for j in q.jobs)
                candidates.append((-priority, q.way, q.jobs[0][0], q.key, vid))
        return (min(candidates)[1], min(candidates)[4]) if candidates else None

    def batch(self, n, t, m):
        """The items that a Claim of a mount takes."""
        _, vid, way = self.mount(m)
        room = self.tape(vid)["capacity"] - self.used(n, vid) if way == ARCHIVE else self.room(n, t)
        taken = []
        for job in self.queue(n, way, self.tape(vid)["pool"] if way == ARCHIVE else vid):
            if len(taken) < self.limits["batchFiles"] and self.size_of(job[1]) <= room:
                taken.append(job)
                room -= self.size_of(job[1])
        if way == ARCHIVE:
            first = len(self.tape_items(n, vid)) + 1
            return [Item(job, first + k) for k, job in enumerate(taken)]
        fseq = {job: next(s for v, s in self.sources(n, job[1]) if v == vid) for job in taken}
        return sorted((Item(job, fseq[job]) for job in taken), key=lambda i: i.fseq)

    # ---- stage requests and repacks

    def new_stage_file(self, k, wanted):
        t, file = self.entry(k).at, self.named(k - 1, wanted.path)
        new = lambda state, started, finished, error: StageFile(wanted.path, file, state, started, finished, error, False, wanted.lifetime)
        if file is None:
            return new("FAILED", None, t, "no such file")
        if self.is_resident(k - 1, file):
            return new("COMPLETED", t, t, None)
        if not self.places(k - 1, file):
            return new("FAILED", None, t, "no tape is left")
        if self.recall(k, file).named:
            return new("STARTED", t, None, None)
        return new("SUBMITTED", None, None, None)

    def stage_file_after(self, n, id, s):
        """A file of a request behind entry n."""
        e, t = self.entry(n), self.entry(n).at
        kind, values = e.ask
        if kind == "Release" and values[0] == id and s.path in values[1]:
            s = s._replace(released=True)
        if s.state not in ("SUBMITTED", "STARTED"):
            return s
        if kind == "Cancel" and values[0] == id and s.path in values[1]:
            return s._replace(state="CANCELLED", finished=t)
        job = (self.recall(n - 1, s.file).birth, s.file, 0)
        if self.recall(n, s.file):
            claimed = kind == "Claim" and any(i.job == job for i in e.answer[1]) and s.state == "SUBMITTED"
            return s._replace(state="STARTED", started=t) if claimed else s
        if kind == "Recalled":
            return s._replace(state="COMPLETED", finished=t)
        error = "deleted" if kind == "Delete" else "no tape is left"
        if kind == "Failed":
            error = "; ".join(charge_text(c) for c in self.charges(n, job))
        return s._replace(state="FAILED", finished=t, error=error)

    @cached
    def request(self, n, id):
        """The files of a stage request, or None where there is none or it was dropped."""
        if not 0 < id <= n or self.entry(id).ask.kind != "Stage":
            return None
        if n == id:
            first = {}
            for w in self.entry(id).ask.values[0]:
                first.setdefault(w.path, w)
            return tuple(self.new_stage_file(id, w) for w in first.values())
        before = self.request(n - 1, id)
        if before is None or self.entry(n).ask == ask("DropStage", id):
            return None
        return tuple(self.stage_file_after(n, id, s) for s in before)

    @cached
    def repack(self, n, id):
        """The items of a repack: (file, copy, state)."""
        if n == id:
            return tuple((f, c, "WRITING" if self.is_resident(id - 1, f) else "READING") for _, f, c in self.entry(id).answer[2])
        return tuple(self.repack_item_after(n, item) for item in self.repack(n - 1, id))

    def repack_item_after(self, n, item):
        file, copy, state = item
        kind = self.entry(n).ask.kind
        ended = {"READING": self.recall(n, file) is None, "WRITING": self.archive_birth(n, file, copy) is None}
        if not ended.get(state):
            return item
        if kind == "Delete":
            return file, copy, "GONE"
        if state == "READING":
            return file, copy, "WRITING" if kind == "Recalled" else "FAILED"
        return file, copy, "DONE" if kind == "Flushed" else "FAILED"

    def is_repack_live(self, n, vid):
        made = [k for k in range(1, n + 1) if self.entry(k).ask == ask("Repack", vid)]
        return any(state in ("READING", "WRITING") for k in made for _, _, state in self.repack(n, k))

    # ---- localities and failed copies

    def locality(self, n, file):
        states = [self.tape_state(n, p[0]) for p in self.places(n, file)]
        readable, resident = any(s in READABLE for s in states), self.is_resident(n, file)
        if self.is_taped(n, file) and readable:
            return "DISK_AND_TAPE" if resident else "TAPE"
        if resident:
            return "DISK"
        return "UNAVAILABLE" if "DISABLED" in states else "LOST"

    def is_failed(self, n, file, copy):
        return not self.was_flushed(n, file, copy) and self.archive_birth(n, file, copy) is None

    def failed_copies(self, n):
        """(file, copy, errors) of each copy of a live file that has failed."""
        found = []
        for f in self.files(n):
            for c in self.copies_of(f):
                if self.is_live(n, f) and self.is_failed(n, f, c):
                    last = max(k for k in range(1, n + 1) if (k, f, c) in self.archive_births(k))
                    found.append((f, c, [charge_text(x) for x in self.charges(n, (last, f, c))]))
        return found

    # ---- answers

    def answer(self, t, who, question):
        return getattr(self, "answer_" + question.kind)(len(self), t, *question.values)

    def answer_Put(self, n, t, path, content):
        if not is_path(path):
            return refused("bad path")
        if self.class_of(path) is None:
            return refused("no directory")
        if self.named(n, path):
            return refused("path taken")
        if len(content) > self.room(n, t):
            return refused("no space")
        return ("Stored", self.evicted_for(n, t, len(content)))

    def answer_Delete(self, n, t, path):
        return ("Done",) if self.named(n, path) else refused("no such file")

    def answer_Stage(self, n, t, files):
        return ("Staged", n + 1)

    def answer_Cancel(self, n, t, id, paths):
        files = self.request(n, id)
        if files is None:
            return refused("no such request")
        return ("Done",) if set(paths) <= {s.path for s in files} else refused("path not in request")

    answer_Release = answer_Cancel

    def answer_DropStage(self, n, t, id):
        return refused("no such request") if self.request(n, id) is None else ("Done",)

    def answer_Next(self, n, t, drive):
        if self.is_down(n, drive):
            return ("DriveDown",)
        if any(self.mount(m)[0] == drive for m in self.open_mounts(n)):
            return ("DriveBusy",)
        chosen = self.choice(n, t, drive)
        return ("Mounted", n + 1) + chosen if chosen else ("Idle",)

    def answer_Claim(self, n, t, m):
        items = self.batch(n, t, m)
        if not items:
            return ("Nothing",)
        need = sum(self.size_of(i.job[1]) for i in items)
        evicted = self.evicted_for(n, t, need) if self.mount(m)[2] == RETRIEVE else []
        return ("Batch", items, evicted)

    def answer_Flushed(self, n, t, m, items):
        return ("Told", ["Done" if self.is_live_job(n, i.job) else "Stale" for i in items])

    def answer_Recalled(self, n, t, m, job):
        return ("Arrived", "Done" if self.is_live_job(n, job) else "Stale")

    def answer_Failed(self, n, t, m, fault, charged, returned):
        return ("Done",)

    def answer_End(self, n, t, m, fault):
        return ("Done",)

    def answer_DriveUp(self, n, t, drive):
        return ("Done",) if any(d["name"] == drive for d in self.site["drives"]) else refused("no such drive")

    answer_DriveDown = answer_DriveUp

    def on_free_tape(self, n, vid):
        """Why nothing may be done to a tape, or None."""
        if not any(t["vid"] == vid for t in self.site["tapes"]):
            return refused("no such tape")
        if self.is_mounted(n, vid):
            return refused("tape is mounted")
        return refused("tape is broken") if self.tape_state(n, vid) == "BROKEN" else None

    def answer_TapeState(self, n, t, vid, state):
        return self.on_free_tape(n, vid) or ("Done",)

    def answer_Reclaim(self, n, t, vid):
        why = self.on_free_tape(n, vid)
        return why or (refused("tape has live files") if self.live_items_on(n, vid) else ("Done",))

    def answer_Repack(self, n, t, vid):
        if not any(tape["vid"] == vid for tape in self.site["tapes"]):
            return refused("no such tape")
        if self.tape_state(n, vid) != "REPACKING":
            return refused("tape is not repacking")
        if self.is_repack_live(n, vid):
            return refused("repack is live")
        return ("Repacking", n + 1, self.live_items_on(n, vid))

    def answer_Retry(self, n, t, paths):
        files = [self.named(n, p) for p in distinct(paths)]
        if None in files:
            return refused("no such file")
        return ("Retried", [(n + 1, f, c) for f in files for c in self.copies_of(f) if self.is_failed(n, f, c)])


def weight_of(question, answer):
    """1, and 1 for each element in the lists of the ask and its answer."""
    return 1 + sum(len(v) for v in question.values + answer[1:] if isinstance(v, list))


def without(items, jobs):
    return [i for i in items if i.job not in jobs]


def charge_text(charge):
    drive, vid, fault = charge
    return f"{fault} on {drive} {vid}"


def is_path(path):
    parts = path[1:].split("/")
    return 2 <= len(path) <= 1024 and path[0] == "/" and all(p not in ("", ".", "..") for p in parts)
