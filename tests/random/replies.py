"""What is asked over HTTP, and the reply to it, by docs/ROUTES.md."""

import json


WORDS = {200: "OK", 201: "Created", 400: "Bad Request", 404: "Not Found", 409: "Conflict", 503: "Service Unavailable", 507: "Insufficient Storage"}
STATUS = {
    "bad path": 400, "no directory": 400, "path not in request": 400,
    "no such file": 404, "no such request": 404, "no such drive": 404, "no such tape": 404, "no such repack": 404,
    "path taken": 409, "not on disk": 409, "tape is mounted": 409, "tape is broken": 409, "tape has live files": 409,
    "tape is not repacking": 409, "repack is live": 409,
    "history is full": 503, "no space": 507,
}


def id_text(number):
    return "00000000-0000-8000-8000-%012x" % number


def text_of(value):
    return json.dumps(value, separators=(",", ":"), sort_keys=True).encode()


def reply(status, content=b"", kind="application/json", location=None):
    fields = [f"Content-Type: {kind}"] if content or kind != "application/json" else []
    fields.append(f"Content-Length: {len(content)}")
    fields += [f"Location: {location}"] if location else []
    return f"HTTP/1.1 {status} {WORDS[status]}\r\n".encode() + "\r\n".join(fields).encode() + b"\r\n\r\n" + content


def refusal(why):
    return reply(STATUS[why], text_of({"error": why}))


def reply_to(archive, at, who, question):
    """Asks, and gives the reply."""
    look = LOOKS.get(question.kind)
    if look:
        return look(archive, len(archive), *question.values)
    answer = archive.ask(at, who, question)
    if answer[0] == "Refused":
        return refusal(answer[1])
    if answer[0] == "Staged":
        return reply(201, text_of({"requestId": id_text(answer[1])}), location=f"{archive.site['endpoint']}/stage/{id_text(answer[1])}")
    if answer[0] == "Repacking":
        return reply(201, text_of({"repackId": id_text(answer[1])}))
    if answer[0] == "Retried":
        return reply(200, text_of({"retried": len(answer[1])}))
    return reply(201 if answer[0] == "Stored" else 200)


def fetch(archive, n, path):
    file = archive.named(n, path)
    if file is None:
        return refusal("no such file")
    if not archive.is_resident(n, file):
        return refusal("not on disk")
    return reply(200, archive.content_of(file), "application/octet-stream")


def there(**members):
    """The members that have a value."""
    return {name: value for name, value in members.items() if value is not None}


def stage_info(archive, n, id):
    files = archive.request(n, id)
    if files is None:
        return refusal("no such request")
    told = [
        there(error=s.error, finishedAt=s.finished, onDisk=s.file is not None and archive.is_resident(n, s.file), path=s.path, startedAt=s.started, state=s.state)
        for s in files
    ]
    started = min((s.started for s in files if s.started is not None), default=None)
    completed = max((s.finished for s in files), default=None) if all(s.finished is not None for s in files) else None
    return reply(200, text_of(there(completedAt=completed, createdAt=archive.entry(id).at, files=told, id=id_text(id), startedAt=started)))


def archive_info(archive, n, paths):
    told = []
    for path in paths:
        file = archive.named(n, path)
        told.append({"locality": archive.locality(n, file), "path": path} if file else {"error": "no such file", "path": path})
    return reply(200, text_of(told))


def repack_info(archive, n, id):
    if not 0 < id <= n or archive.entry(id).ask.kind != "Repack":
        return refusal("no such repack")
    items = [{"copy": c, "path": archive.path_of(f), "state": state} for f, c, state in archive.repack(n, id)]
    return reply(200, text_of({"id": id_text(id), "items": items, "vid": archive.entry(id).ask.values[0]}))


def failed_list(archive, n):
    return reply(200, text_of([{"copy": c, "errors": errors, "path": archive.path_of(f)} for f, c, errors in archive.failed_copies(n)]))


def tape_info(archive, n, vid):
    if not any(t["vid"] == vid for t in archive.site["tapes"]):
        return refusal("no such tape")
    items = archive.tape_items(n, vid)
    told = {"files": len(archive.live_items_on(n, vid)), "nextFseq": len(items) + 1, "state": archive.tape_state(n, vid), "used": archive.used(n, vid), "vid": vid}
    return reply(200, text_of(told))


def queues(archive, n):
    told = []
    for q in archive.queues(n):
        size = sum(archive.size_of(j[1]) for j in q.jobs)
        told.append({"bytes": size, "direction": q.way, "files": len(q.jobs), "key": q.key, "oldest": archive.entry(q.jobs[0][0]).at})
    return reply(200, text_of(told))


LOOKS = {
    "Fetch": fetch, "StageInfo": stage_info, "ArchiveInfo": archive_info, "RepackInfo": repack_info,
    "FailedList": failed_list, "TapeInfo": tape_info, "Queues": queues,
}

# How each ask and look is sent: method, target and body.
ROUTES = {
    "Put": lambda path, content: ("PUT", "/data" + path, content),
    "Delete": lambda path: ("DELETE", "/data" + path, None),
    "Stage": lambda files: ("POST", "/api/v1/stage", {"files": [wanted_text(w) for w in files]}),
    "Cancel": lambda id, paths: ("POST", f"/api/v1/stage/{id_text(id)}/cancel", {"paths": paths}),
    "Release": lambda id, paths: ("POST", f"/api/v1/release/{id_text(id)}", {"paths": paths}),
    "DropStage": lambda id: ("DELETE", f"/api/v1/stage/{id_text(id)}", None),
    "DriveUp": lambda drive: ("POST", f"/admin/v1/drive/{drive}/up", None),
    "DriveDown": lambda drive: ("POST", f"/admin/v1/drive/{drive}/down", None),
    "TapeState": lambda vid, state: ("POST", f"/admin/v1/tape/{vid}/state", {"state": state}),
    "Reclaim": lambda vid: ("POST", f"/admin/v1/tape/{vid}/reclaim", None),
    "Repack": lambda vid: ("POST", "/admin/v1/repack", {"vid": vid}),
    "Retry": lambda paths: ("POST", "/admin/v1/failed/retry", {"paths": paths}),
    "Fetch": lambda path: ("GET", "/data" + path, None),
    "StageInfo": lambda id: ("GET", f"/api/v1/stage/{id_text(id)}", None),
    "ArchiveInfo": lambda paths: ("POST", "/api/v1/archiveinfo", {"paths": paths}),
    "RepackInfo": lambda id: ("GET", f"/admin/v1/repack/{id_text(id)}", None),
    "FailedList": lambda: ("GET", "/admin/v1/failed", None),
    "TapeInfo": lambda vid: ("GET", f"/admin/v1/tape/{vid}", None),
    "Queues": lambda: ("GET", "/admin/v1/queues", None),
}


def wanted_text(wanted):
    return there(path=wanted.path, diskLifetime=None if wanted.lifetime is None else f"PT{wanted.lifetime}S")


def message(who, question):
    """The request that asks this."""
    method, target, body = ROUTES[question.kind](*question.values)
    content = body if isinstance(body, bytes) else text_of(body) if body is not None else None
    head = f"{method} {target} HTTP/1.1\r\nHost: t\r\n"
    head += "".join(f"X-Cta-{name}: {value}\r\n" for name, value in zip(("Requester", "Group"), who) if value)
    head += f"Content-Length: {len(content)}\r\n" if content is not None else ""
    return head.encode() + b"\r\n" + (content or b"")
