"""Wrong tiers: edits of the plain model's text, each named by what it does. Each is a list of words of that text, which stand there once, with those
that take their place."""

WRONG = {}


def wrong(name, *edits):
    WRONG[name] = edits


EVICTED = "            if entry[3] is None:\n                self.remove(key_of(entry))\n"
SHOWN = "return flying[0] if flying else self.bodies.get(key)"
PURGED = 'if not self.remove(key_of(entry)):\n            return "nothing"'
OVER = "while sum(row[1] for row in self.rows()) > self.limit or self.watermark is not None and len(self.rows()) > self.watermark:"
WEIGHT = "return max(1, len(self.data) + self.meta.length + self.meta.external)"
FRESH = "fresh, whole = write.meta.until >= at, not write.flies"
READ_ON = 'else "end" if self.write.ended or not self.write.flies else "pending"'
KEPT_ROW = "rows.insert(0, self.untrack(entry)[0] if tracked else [entry, weight])"
TOO_HEAVY = '            self.remove(key_of(entry))\n            raise Fault("TooHeavy")'
AGED = 'if permit.status is None and max(0, at - permit.since) >= self.age:\n            permit.status = "age-timeout"\n'
RELEASED = "        permit, request.permit = request.permit, None\n"
LEFT = "        if request.write:\n            self.land(request.write)\n"

# What is found, and what is removed.
wrong("a removal spares writes in flight", ("            write.removed |= key_of(write.entry) == key\n", "            pass\n"))
wrong("what is evicted is found still", (EVICTED, ""))
OWN = "            body = self.bodies.get(key_of(entry))\n            if entry[3] is None and (body is None or body.entry == entry):\n                self.remove(key_of(entry))\n"
wrong("an eviction spares a body under another tag", (EVICTED, OWN))
wrong("an entry with an id takes a body along", (EVICTED, "            self.remove(key_of(entry))\n"))
wrong("a dropped write goes on", (LEFT, ""))
wrong("a dropped write is a body", (LEFT, LEFT + "            self.bodies[key_of(request.entry)] = request.write\n"))
wrong("a removed write may finish", ('        if write.removed:\n            raise Fault("WriteRemoved")\n', ""))
wrong("the write that began last is shown", (SHOWN, "return flying[-1] if flying else self.bodies.get(key)"))
wrong("a body is shown before a write in flight", (SHOWN, "return self.bodies.get(key) or (flying[0] if flying else None)"))
wrong("nothing is ever found", ("        write = self.shown(key_of(request.entry))\n", "        write = None\n"))
wrong("a purge finds what is tracked", (PURGED, PURGED.replace("(entry)):", "(entry)) and not self.untrack(entry):")))
wrong("a purge that finds nothing takes the entry out", (PURGED, PURGED.replace("            return", "            self.untrack(entry)\n            return")))
wrong("a purge leaves the entry tracked", ('        self.untrack(entry)\n        return "purged"', '        return "purged"'))
FINISHED = "        self.bodies[key_of(write.entry)] = write\n        self.track"
wrong("a body isn't replaced", (FINISHED, FINISHED.replace("[key_of(write.entry)] = write", ".setdefault(key_of(write.entry), write)")))

# Whether it is fresh.
wrong("it is stale at its last moment", (FRESH, FRESH.replace(">=", ">")))
wrong("its lifetime begins with the look-up", (FRESH, FRESH.replace("write.meta.until >= at", "write.meta.until >= write.meta.updated")))
wrong("a complete body is told to be in flight", (FRESH, FRESH + "\n        whole = whole and not write.data"))

# What is read.
NOW_READ = "        body = self.bodies.get(key_of(request.entry))\n        if body and request.reader.whole:\n            request.reader.data = body.data\n"
wrong("the body of now is read", ("        return request.reader.read()", NOW_READ + "        return request.reader.read()"))
TWICE = "                self.place = len(self.data)\n"
wrong("a body is read twice", (TWICE, "                self.place = len(self.data) if vars(self).setdefault('once', not self.data) else None\n                self.once = True\n"))
wrong("a read in flight ends with the first bytes", (READ_ON, READ_ON.replace("not self.write.flies", "not self.write.flies or self.write.data")))
wrong("a reader waits for a dropped write", ("            self.land(request.write)\n        if request.permit", "            self.flying.remove(request.write)\n        if request.permit"))
wrong("a reader gets a byte at a time and skips the rest", ("        self.place += len(rest)\n", "        self.place += len(rest)\n        rest = rest[:1]\n"))
wrong("a reader in flight begins with what comes next", ("None if whole else 0\n", "None if whole else len(write.data)\n"))
wrong("a piece goes after the last", ('        if write.ended:\n            raise Fault("AfterEnd")\n', ""))
wrong("a piece takes the place of those before", ("        write.data += bytes\n", "        write.data = bytes\n"))

# The limits, and the order of use.
wrong("one more than the watermark stays", (OVER, OVER.replace("> self.watermark", "> self.watermark + 1")))
wrong("it evicts at the limit", (OVER, OVER.replace("> self.limit", ">= max(1, self.limit)")))
wrong("it evicts everything", (OVER, "while self.rows():"))
wrong("it evicts one at most", (OVER, OVER.replace("while ", "if ")))
wrong("only bytes weigh", (WEIGHT, "return max(1, len(self.data))"))
wrong("what is outside doesn't weigh", (WEIGHT, "return max(1, len(self.data) + self.meta.length)"))
wrong("a body of no weight weighs nothing", (WEIGHT, WEIGHT.replace("max(1, ", "max(0, ").replace("self.meta.length", "(self.meta.length if self.data else 0)")))
wrong("a use weighs anew", (KEPT_ROW, "rows.insert(0, (self.untrack(entry), [entry, weight])[1])"))
TRACKS = "    def track(self, entry, weight):\n"
KEEPS_PLACE = "        if [entry, weight] in self.shard_of(entry):\n            return\n"
wrong("a refill of the same weight keeps its place", (TRACKS, TRACKS + KEEPS_PLACE))
wrong("a use keeps its place", (KEPT_ROW, "if not tracked:\n            rows.insert(0, [entry, weight])"))
wrong("a look-up in flight is a use", ("        if whole:\n            self.use(request.entry", "        if True:\n            self.use(request.entry"))
wrong("a new body keeps the place of the old", ("self.track(write.entry, write.weight())", "self.reweigh(write.entry, write.weight())"))
ON_A_HIT = "            self.use(request.entry, write.weight())\n"
GOES = "            if len(self.rows()) > 2:\n                gone = self.shard_of(request.entry).pop()[0]\n                self.remove(key_of(gone))\n"
wrong("a hit evicts", (ON_A_HIT, ON_A_HIT + GOES))
wrong("it evicts from the shorter shard", ("len(self.shards[b]) > len(self.shards[a])", "len(self.shards[b]) < len(self.shards[a])"))
wrong("of equally long shards the second", ("len(self.shards[b]) > len(self.shards[a])", "len(self.shards[b]) >= len(self.shards[a])"))
wrong("it evicts what was used last", ("self.shards[at].pop()[0]", "self.shards[at].pop(0)[0]"))
wrong("past an empty shard it goes back", ("at = (at + 1) % n", "at = (at - 1) % n"))
wrong("one word picks", ("a, b = self.words.next() % n, self.words.next() % n", "a = b = self.words.next() % n"))
wrong("a word is drawn where nothing goes", ("        count = 0\n", "        count = 0\n        self.words.next()\n"))

# The lock.
wrong("each that asks has a permit", ('if last and last.status not in ("dangling", "age-timeout"):', "if False:"))
wrong("what is absent gives no permit", ('lock, request.reader, request.seen = self.ask(request, at), None, None', 'lock, request.reader, request.seen = "none", None, None'))
LATE = "        last = self.permits.get(key_of(request.entry))\n        permit = permit and last\n"
wrong("a late release ends the next permit", (RELEASED, RELEASED + LATE))
wrong("something fresh asks the lock", ('lock = "none" if fresh else self.ask(request, at)', "lock = self.ask(request, at)"))
wrong("a permit of just its age waits", (AGED, AGED.replace(">=", ">")))
wrong("a wait begins with the look-up", ("request.wait, request.first = last, None", "request.wait, request.first = last, at"))
wrong("waits don't add up", ("request.wait, request.waited = None, request.waited + spent", "request.wait = None"))
BACK = (AGED, AGED.replace("max(0, at - permit.since)", "abs(at - permit.since)"))
wrong("moments that go back count", ("request.wait, max(0, at - first)", "request.wait, abs(at - first)"), BACK)
WAITED = "if outcome is None and self.wait is not None and spent >= max(0, self.wait - request.waited):\n"
TIMES_OUT = WAITED.replace("outcome is None", "permit.status is None").replace(":\n", ":\n            request.wait, request.waited = None, request.waited + spent\n            return 'waited wait-timeout'\n")
wrong("a wait ends before the permit's age", ("        " + AGED, "        " + TIMES_OUT + "        " + AGED))
wrong("a dropped permit keeps its age", ('            request.permit.status = "dangling"\n', '            request.permit.status = request.permit.status or "dangling"\n'))
GIVES_UP = 'self.release(request, "give-up")\n                request.phase, request.reader = "Disabled", None\n'
wrong("done is told for given up", (GIVES_UP, GIVES_UP.replace("give-up", "done")))
BEGUN = 'self.release(request, "done")\n        request.phase, request.write, request.reader = "Begun", write, Reading(write, False)'
wrong("a begin keeps its permit", (BEGUN, BEGUN.replace('self.release(request, "done")\n        ', "")))
wrong("one may begin twice", (BEGUN, BEGUN.replace('request.phase, request.write, request.reader = "Begun",', "request.write, request.reader =")))
wrong("what may not be kept is read", (GIVES_UP, GIVES_UP.replace("request.phase, request.reader = \"Disabled\", None", 'request.phase = "Disabled"')))
FOUND_WAITS = '        request.gave_read, request.phase, request.reader = lock == "read", '
wrong("one that waits may begin over something stale", (FOUND_WAITS, FOUND_WAITS.replace('lock == "read"', "False")))
wrong("a look-up while it waits is answered", ('        if request.wait:\n            raise Fault("Waiting")\n', ""))

# Renewals.
NEW = "Meta(read, until, at, old) if said is None else Given(read, said, old)"
wrong("a begin over something stale has its own origin", (NEW, "Meta(read, until, at) if said is None else Given(read, said)"))
STILL = "        if self.bodies.get(key_of(request.entry)) is not write:\n            raise"
OTHER = "        write = self.bodies.get(key_of(request.entry))\n        if write is None:\n            raise"
wrong("another body is renewed", (STILL, OTHER))
wrong("a write in flight is renewed", (STILL, STILL.replace("self.bodies.get(key_of(request.entry))", "self.shown(key_of(request.entry))")))
wrong("it merges into the head of now", ("merged = Merged(old, sent)", "merged = Merged(write.meta, sent)"))
RENEWS = "self.reweigh(request.entry, max(1, len(write.data) + meta.length + meta.external))\n        write.meta = meta\n"
wrong("a renewal keeps its weight", (RENEWS, "self.reweigh(request.entry, write.weight())\n        write.meta = meta\n"))
wrong("a renewal isn't weighed", (RENEWS, "write.meta = meta\n"))
wrong("a renewal keeps the old meta", (RENEWS, RENEWS.replace("        write.meta = meta\n", "")))
wrong("a renewal is a use", (RENEWS, RENEWS.replace("self.reweigh(", "self.track(")))
IN_FLIGHT = "        for it in self.flying:\n            if key_of(it.entry) == key_of(request.entry):\n                it.meta = meta\n"
wrong("a renewal renews writes in flight too", (RENEWS, RENEWS + IN_FLIGHT))
wrong("a renewal takes a byte off", (RENEWS, RENEWS + "        write.data = write.data[:-1] or write.data\n"))
EVICTS = '        return f"revalidated evicted={self.evict()}"'
wrong("a renewal evicts nothing", (EVICTS, '        return "revalidated evicted=0"'))
wrong("a renewal hides what it evicts", (EVICTS, '        self.evict()\n        return "revalidated evicted=0"'))
SPARES = "        if not any(row[0] == request.entry for row in self.shard_of(request.entry)):\n            self.bodies[key_of(request.entry)] = write\n"
wrong("a body whose renewal evicts it stays", (EVICTS, EVICTS.replace("return", "line =") + "\n" + SPARES + "        return line"))
DONE = '        self.release(request, "done")\n        request.phase = "Revalidated"\n'
wrong("a renewal keeps its permit", (DONE, '        request.phase = "Revalidated"\n'))
wrong("one may renew twice", (DONE, '        self.release(request, "done")\n'))
NO_CACHE = 'self.release(request, "give-up")\n                request.phase = "RevalidatedNoCache"\n'
wrong("what may not be kept renews", (NO_CACHE, NO_CACHE + "                write.meta = Meta(merged, at + 100, at, old, True)\n"))
RENEWED = "Meta(merged, until, at, old, True) if said is None else Given(sent, said, old, True)"
wrong("a renewal is a creation", (RENEWED, RENEWED.replace(", True)", ")")))
wrong("one that waits may renew", ('if request.phase != "Stale" or request.gave_read:', 'if request.phase != "Stale":'))
HEAD_READ = '            raise Fault("WrongPhase")\n        try:\n            sent = head_of(head)\n'
NOT_STORED = '        if self.bodies.get(key_of(request.entry)) is not request.seen[0]:\n            raise Fault("NotStored")\n'
wrong("not stored is told before a bad head", (HEAD_READ, HEAD_READ.replace("        try", NOT_STORED + "        try")))

# Refusals, and given metas.
wrong("a body too heavy stays", (TOO_HEAVY, '            raise Fault("TooHeavy")'))
wrong("a body too heavy is told as nothing done", (TOO_HEAVY, TOO_HEAVY.replace('"TooHeavy"', '"TooHeavy", (False, False, ())')))
wrong("a body too heavy comes in", (TOO_HEAVY, "            pass"))
wrong("a given moment isn't taken", ('self.until, self.updated, self.windows = said["until"],', 'self.until, self.updated, self.windows = said["updated"],'))
wrong("a given renewal wants a 304", ("sent.status == 304 if said is None else has_own_body(sent.status) and sent.status < 600", "sent.status == 304"))
wrong("any head renews", ("confirms = sent.status == 304 if said is None", "confirms = True if said is None"))
wrong("a 304 is put with a given meta", ("            if not has_own_body(head.status):\n", "            if False:\n"))
wrong("a given renewal has what it says outside", ("(old.created, old.external) if confirms", "(old.created, external) if confirms"))
wrong("a given put is cut at its length", ("            write.data = body\n", "            write.data = body[: body_length(head)]\n"))
GIVEN_PUT = "        body = data[head.length :]\n        if said is not None:\n"
wrong("a given put is judged by its lines", (GIVEN_PUT, GIVEN_PUT.replace("if said is not None:", "if said is not None and kept_until(head, at) is not None:")))
wrong("a given begin is judged by its lines", ("        if said is None:\n            until = kept_until(read, at)", "        if True:\n            until = kept_until(read, at)"))
wrong("a put that is too short is taken", ('        if length is not None and len(body) < length:\n            raise Fault("Incomplete")\n', ""))
wrong("any put may be kept", ("        until = kept_until(head, at)\n        if until is None:\n            return", "        until = kept_until(head, at) or at\n        if until is None:\n            return"))
wrong("an id in use is opened anew", ('        if id in self.requests:\n            raise Fault("IdInUse")\n', ""))
