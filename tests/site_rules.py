"""The thirty rules of a site file once more, in the order of docs/SITE.md, for tests/fuzz. It shares no code with the program."""
import copy, json

NAME = set(b"ABCDEFGHIJKLMNOPQRSTUVWXYZabcdefghijklmnopqrstuvwxyz0123456789_-.")
PB = 1 << 50
LIMITS = {"buffer": (1, 1 << 31), "file": (0, 1 << 30), "archiveBytes": (1, PB), "retrieveBytes": (1, PB), "archiveFiles": (1, 10**6), "retrieveFiles": (1, 10**6), "batchFiles": (1, 1000),
          "tries": (1, 16), "history": (1, 10**6), "lifetime": (0, 3153600000)}
LISTS = {"vos": 64, "classes": 256, "pools": 256, "routes": 1024, "policies": 64, "rules": 1024, "libraries": 32, "tapes": 4096, "drives": 64, "directories": 1024, "failures": 1024}
STATES = ("ACTIVE", "DISABLED", "BROKEN", "REPACKING")
CALLS = ("load", "write", "flush", "read", "unload")
PRIORITY, AGE = (0, 10**6), (0, 31536000)


class NoJson(Exception):
    pass


def is_text(it, most=None):
    return isinstance(it, str) and (most is None or 1 <= len(it.encode()) <= most)


def is_in(it, bounds):
    return type(it) is int and bounds[0] <= it <= bounds[1]


def is_name(it):
    return isinstance(it, str) and 1 <= len(it.encode()) <= 64 and set(it.encode()) <= NAME


def is_path(it):
    text = it.encode()
    return 2 <= len(text) <= 1024 and text[:1] == b"/" and all(c >= 0x20 and c != 0x7F for c in text) and all(p not in (b"", b".", b"..") for p in text[1:].split(b"/"))


def whole(text):
    """A number of digits alone; -0 is none, and what no 64-bit float holds is no JSON."""
    if len(text) > 320:
        raise NoJson
    number = int(text)
    try:
        float(number)
    except OverflowError:
        raise NoJson
    return -0.0 if text == "-0" else number


def broken(text):
    number = float(text)
    if number in (float("inf"), float("-inf")):
        raise NoJson
    return number


def no_constant(_):
    raise NoJson


def look(value):
    """Refuses texts that are no UTF-8."""
    if isinstance(value, str):
        value.encode()
    elif isinstance(value, list):
        for it in value:
            look(it)


def pairs(found):
    for name, value in found:
        look(name)
        look(value)
    return dict(found)


def depth(value):
    """How deep arrays and objects are nested, in a text that is JSON."""
    most = now = 0
    inside = skip = False
    for c in value:
        if skip: skip = False
        elif inside and c == "\\": skip = True
        elif c == '"': inside = not inside
        elif not inside and c in "[{": now += 1; most = max(most, now)
        elif not inside and c in "]}": now -= 1
    return most


def site_of(data):
    if len(data) > 16777216:
        raise NoJson
    text = data.decode("utf-8")
    site = json.loads(text, object_pairs_hook=pairs, parse_int=whole, parse_float=broken, parse_constant=no_constant)
    if not isinstance(site, dict) or depth(text) > 127:
        raise NoJson
    return site


def fits(kind, it):
    """Whether an element has its members, of their kinds and in their ranges."""
    if kind == "libraries":
        return is_text(it)
    if not isinstance(it, dict):
        return False
    text = lambda *names: all(is_text(it.get(name)) for name in names)
    if kind == "vos": return text("name") and is_in(it.get("readDrives"), (0, 64)) and is_in(it.get("writeDrives"), (0, 64))
    if kind == "classes": return text("name", "vo") and is_in(it.get("copies"), (1, 4))
    if kind == "pools": return text("name", "vo")
    if kind == "routes": return text("class", "pool") and is_in(it.get("copy"), (1, 4))
    if kind == "policies": return text("name") and all(is_in(it.get(n), PRIORITY) for n in ("archivePriority", "retrievePriority")) and all(is_in(it.get(n), AGE) for n in ("archiveMinAge", "retrieveMinAge"))
    if kind == "rules": return it.get("kind") in ("requester", "group") and is_text(it.get("name"), 128) and text("policy")
    if kind == "tapes": return text("vid", "pool", "library") and is_in(it.get("capacity"), (1, PB)) and it.get("state") in STATES
    if kind == "drives": return text("name", "library")
    if kind == "directories": return text("path", "class")
    return text("drive") and it.get("call") in CALLS and is_in(it.get("number"), (1, 2**32 - 1)) and it.get("alter", False) in (True, False) and type(it.get("alter", False)) is bool and (it.get("call") == "read" or not it.get("alter", False))


def first(items, wrong):
    return next((n for n, it in enumerate(items) if wrong(n, it)), None)


def repeats(keys):
    return first(keys, lambda n, it: it in keys[:n])


def rules(site):
    """Each rule from the second on with its place, where it is broken, else None; in order, and each only asked where those before hold."""
    yield 2, None if type(site.get("version")) is int and site["version"] == 1 else 0
    endpoint = site.get("endpoint")
    texts = is_text(site.get("sitename"), 128) and is_text(endpoint, 512) and all(0x21 <= c <= 0x7E for c in endpoint.encode()) and is_name(site.get("defaultPolicy")) and is_name(site.get("repackPolicy"))
    yield 3, None if texts else 0
    limits = site.get("limits")
    yield 4, None if isinstance(limits, dict) and all(is_in(limits.get(name), bounds) for name, bounds in LIMITS.items()) else 0
    yield 5, None if limits["file"] <= limits["buffer"] else 0
    lists = {name: site.get(name, [] if name in ("rules", "failures") else None) for name in LISTS}
    yield 6, None if all(isinstance(it, list) and len(it) <= LISTS[name] for name, it in lists.items()) else 0
    yield 7, next((n for kind, items in lists.items() for n, it in enumerate(items) if not fits(kind, it)), None)
    own = {"vos": "name", "classes": "name", "pools": "name", "policies": "name", "tapes": "vid", "drives": "name"}
    named = [(kind, [it if kind == "libraries" else it[own[kind]] for it in lists[kind]]) for kind in LISTS if kind in own or kind == "libraries"]
    yield 8, next((n for _, items in named for n, it in enumerate(items) if not is_name(it)), None)
    names = dict(named)
    for rule, kind in zip(range(9, 16), ("vos", "classes", "pools", "policies", "libraries", "tapes", "drives")):
        yield rule, repeats(names[kind])
    yield 16, repeats([it["path"] for it in lists["directories"]])
    routes, classes, pools = lists["routes"], lists["classes"], lists["pools"]
    of_class, of_pool = {it["name"]: it for it in classes}, {it["name"]: it for it in pools}
    yield 17, first(classes, lambda _, it: it["vo"] not in names["vos"])
    yield 18, first(pools, lambda _, it: it["vo"] not in names["vos"])
    yield 19, first(classes, lambda _, it: any(sum(r["class"] == it["name"] and r["copy"] == copy for r in routes) != 1 for copy in range(1, it["copies"] + 1)))
    yield 20, first(routes, lambda _, it: it["class"] not in of_class or it["copy"] > of_class[it["class"]]["copies"])
    yield 21, first(routes, lambda _, it: it["pool"] not in of_pool)
    yield 22, first(routes, lambda _, it: of_pool[it["pool"]]["vo"] != of_class[it["class"]]["vo"])
    yield 23, repeats([(it["class"], it["pool"]) for it in routes])
    yield 24, None if site["defaultPolicy"] in names["policies"] else 0
    yield 25, None if site["repackPolicy"] in names["policies"] else 0
    yield 26, first(lists["rules"], lambda _, it: it["policy"] not in names["policies"])
    yield 27, repeats([(it["kind"], it["name"]) for it in lists["rules"]])
    yield 28, first(lists["tapes"], lambda _, it: it["pool"] not in of_pool or it["library"] not in names["libraries"])
    of_drives = first(lists["drives"], lambda _, it: it["library"] not in names["libraries"])
    yield 29, of_drives if of_drives is not None else first(lists["failures"], lambda _, it: it["drive"] not in names["drives"])
    yield 30, first(lists["directories"], lambda _, it: not is_path(it["path"]) or it["class"] not in of_class)


def first_broken(data):
    """The first rule that the bytes break, with its place, or None."""
    try:
        site = site_of(data)
    except (ValueError, RecursionError, NoJson):
        return 1, 0
    return next((it for it in rules(site) if it[1] is not None), None)


VALUES = [None, True, False, 0, 1, 2, 64, 65, 1000, 1001, 1 << 31, (1 << 31) + 1, -1, 1.0, 1e300, "", "a", "std", "p1", "atlas", "L1", "V1", "x" * 64, "x" * 65, "a b", "é", "/atlas", "/a//b", "/..", "ACTIVE", "read", [], {}, [1], {"name": "a"}]


def changed(data, dice):
    """The bytes of a site with one to three members changed, where the bytes are JSON."""
    try:
        site = json.loads(data)
    except ValueError:
        return data
    for _ in range(dice.choice((1, 1, 1, 2, 3))):
        within = site
        while True:
            keys = list(within) if isinstance(within, dict) else list(range(len(within)))
            if not keys:
                break
            key = dice.choice(keys)
            if isinstance(within[key], (dict, list)) and dice.random() < 0.8:
                within = within[key]
                continue
            kind = dice.randrange(7)
            if kind == 0: del within[key]
            elif kind == 1: within[key] = copy.deepcopy(dice.choice(VALUES))
            elif kind == 2 and isinstance(within, list): within.insert(dice.randrange(len(within) + 1), json.loads(json.dumps(within[key])))
            elif kind == 3 and type(within[key]) is int: within[key] += dice.choice((-1, 1, 1 << 20))
            elif kind == 4 and isinstance(within[key], str): within[key] = within[key][:-1] + dice.choice("aZ1/ .é\x7f")
            elif kind == 5 and isinstance(within, dict): within[dice.choice(("alter", "name", "vo", "number", "x"))] = within[key]
            else: within[key] = copy.deepcopy(dice.choice(VALUES))
            break
    return json.dumps(site, separators=(",", ":"), ensure_ascii=dice.random() < 0.5).encode("utf-8", "surrogatepass")
