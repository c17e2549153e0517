"""Drives with their sessions and tapes. A step is at most one call of the device and then at most one ask, and tells one line."""

from archive import ARCHIVE, ask

FAULTS = {"load": "load fault", "write": "write fault", "flush": "flush fault", "read": "read fault", "unload": "unload fault"}


def altered(content):
    """What a read gives that the site plans to alter: the first byte is one more."""
    return bytes([(content[0] + 1) % 256]) + content[1:] if content else content


class Drive:
    def __init__(self, name, archive, tapes):
        self.name, self.archive, self.tapes = name, archive, tapes
        self.planned = {(f["call"], f["number"]): f.get("alter", False) for f in archive.site.get("failures", []) if f["drive"] == name}
        self.made = dict.fromkeys(FAULTS, 0)
        self.state = "free"

    def call(self, kind):
        """Makes a call: `ok`, `failed`, or `altered` where a read is to give altered bytes."""
        self.made[kind] += 1
        alters = self.planned.get((kind, self.made[kind]))
        return "ok" if alters is None else "altered" if alters else "failed"

    def ask(self, at, kind, *values):
        return self.archive.ask(at, self.name, ask(kind, *values))

    def fail(self, at, fault, charged, returned):
        self.ask(at, "Failed", self.mount, fault, charged, returned)

    def step(self, at):
        return getattr(self, "step_" + self.state)(at)

    def step_free(self, at):
        answer = self.ask(at, "Next", self.name)
        if answer[0] == "Mounted":
            _, self.mount, self.way, self.vid = answer
            self.state = "held"
            return f"mount {self.way} {self.vid}"
        return {"Idle": "idle", "DriveDown": "down", "Refused": "full"}[answer[0]]

    def step_held(self, at):
        how = self.call("load")
        self.state = "ready"
        if how == "failed":
            self.ask(at, "End", self.mount, FAULTS["load"])
            self.state = "free"
        return f"load {how}"

    def step_ready(self, at):
        answer = self.ask(at, "Claim", self.mount)
        if answer[0] != "Batch":
            self.state = "leaving"
            return "claim 0" if answer[0] == "Nothing" else "claim full"
        self.batch, self.at = answer[1], 0
        self.state = "writing" if self.way == ARCHIVE else "reading"
        return f"claim {len(self.batch)}"

    def step_writing(self, at):
        if self.at == len(self.batch):
            return self.flush(at)
        item, how = self.batch[self.at], self.call("write")
        jobs = [i.job for i in self.batch]
        if how == "failed":
            self.fail(at, FAULTS["write"], [item.job], [j for j in jobs if j != item.job])
            self.state = "leaving"
        self.at += 1
        return f"write {item.fseq} {how}"

    def flush(self, at):
        if self.call("flush") == "failed":
            self.fail(at, FAULTS["flush"], [i.job for i in self.batch], [])
            self.state = "leaving"
            return "flush failed"
        for item in self.batch:
            self.tapes[self.vid, item.fseq] = self.archive.content_of(item.job[1])
        fates = self.ask(at, "Flushed", self.mount, self.batch)[1]
        self.state = "ready"
        return f"flush {fates.count('Done')} {fates.count('Stale')}"

    def step_reading(self, at):
        if self.at == len(self.batch):
            return self.step_ready(at)
        item, how = self.batch[self.at], self.call("read")
        self.at += 1
        wanted, found = self.archive.content_of(item.job[1]), self.tapes[self.vid, item.fseq]
        if how == "altered":
            found = altered(found)
        if how == "failed":
            self.fail(at, FAULTS["read"], [item.job], [])
            return f"read {item.fseq} failed"
        if found != wanted:
            self.fail(at, "mismatch", [item.job], [])
            return f"read {item.fseq} mismatch"
        return f"read {item.fseq} {self.ask(at, 'Recalled', self.mount, item.job)[1].lower()}"

    def step_leaving(self, at):
        how = self.call("unload")
        self.ask(at, "End", self.mount, None if how == "ok" else FAULTS["unload"])
        self.state = "free"
        return f"unload {how}"
