"""The row of each event: that part of Promise.antt, each function named as there."""

from dataclasses import replace

from promise.changes import Permit, Write, alone, appends, begins, body_of, bytes_of, ended, ends, flying, gives, has_number, is_done, lands, puts
from promise.changes import renews, shown, stored_key, takes, waiting, weighs, weight_for
from promise.heads import NOT_READ, TOO_EARLY, with_provenance_of
from promise.requests import CLOSED, NO_LOCK, SPENT, EventRow, answer_alone, err, ok, refused, unread_row
from promise.room import NO_NEEDS, NOTHING, SOME_MEMORY, Needs, a_body, a_renewal, a_use, all_done, enters


def open_row(q, new):
    return EventRow(ok("Opened"), [], new, SOME_MEMORY) if q is None else refused(q, "IdInUse")


def hold_given(permit, new):
    return ("holds", new) if permit is None else ("waits", permit, None)


def asked(asks, at, q, c):
    key = stored_key(q.entry)
    return hold_given(waiting(key, c), Permit(len(c), key, at)) if asks else NO_LOCK


def told(hold):
    return {"no_lock": "none", "holds": "write", "waits": "read"}[hold[0]]


def is_wait(hold):
    return hold[0] == "waits"


def permits_in(hold):
    return [gives(hold[1])] if hold[0] == "holds" else []


def is_given(hold):
    return hold != NO_LOCK


def is_fresh(at, meta):
    return at <= meta.until


def seen_past(at, write):
    """What is past its moment: the number of its write, and its meta then."""
    return None if is_fresh(at, write.meta) else (write.number, write.meta)


def use_of(complete, q, write, c):
    return a_use(alone(q.entry), weight_for(write, c)) if complete else NOTHING


def reader_of(complete, write, c):
    return ("unread", bytes_of(write.number, c)) if complete else ("streaming", write.number, 0)


def after_look(phase, hold, seen, reader, q):
    return replace(q, phase=phase, hold=hold, gave_read=is_wait(hold), seen=seen, reader=reader)


def look_found(at, complete, hold, write, q, c):
    fresh, entering = is_fresh(at, write.meta), use_of(complete, q, write, c)
    request = after_look("hit" if fresh else "stale", hold, seen_past(at, write), reader_of(complete, write, c), q)
    return EventRow(ok("Found", fresh, complete, told(hold)), enters(entering, c) + permits_in(hold), request, Needs(True, is_given(hold), entering))


def look_absent(hold, q):
    request = after_look(q.phase if is_wait(hold) else "miss", hold, None, CLOSED, q)
    return EventRow(ok("Absent", told(hold)), permits_in(hold), request, Needs(is_given(hold) and not is_wait(hold), is_given(hold)))


def look_row(at, q, write, c):
    if write is None:
        return look_absent(asked(q.asks, at, q, c), q)
    return look_found(at, not flying(stored_key(q.entry), c), asked(q.asks and not is_fresh(at, write.meta), at, q, c), write, q, c)


def look_by(at, q, c):
    if q.phase not in ("cache_key", "stale") or q.hold[0] == "holds":
        return refused(q, "WrongPhase")
    return refused(q, "Waiting") if is_wait(q.hold) else look_row(at, q, shown(stored_key(q.entry), c), c)


def elapsed(start, at):
    return max(0, at - start)


def time_waited(first, at):
    return elapsed(at if first is None else first, at)


def is_past(longest, waited, now):
    return longest is not None and now >= max(0, longest - (waited or 0))


def told_in_time(aged, over):
    return "age-timeout" if aged else "wait-timeout" if over else None


def after_poll(how, at, permit, first, q):
    if how is None:
        return replace(q, hold=("waits", permit, at if first is None else first))
    return replace(q, hold=NO_LOCK, waited=(q.waited or 0) + time_waited(first, at))


def poll_row(end, aged, over, at, permit, first, q):
    how = end or told_in_time(aged, over)
    return EventRow(ok("Waited", how), [ends(permit.number, "age-timeout")] if aged and not end else [], after_poll(how, at, permit, first, q), NO_NEEDS)


def poll_by(s, at, q, c):
    if not is_wait(q.hold):
        return refused(q, "WrongPhase")
    _, permit, first = q.hold
    over = is_past(s.wait, q.waited, time_waited(first, at))
    return poll_row(ended(permit.number, c), elapsed(permit.given, at) >= s.age, over, at, permit, first, q)


def released(how, hold, c):
    return [ends(hold[1].number, how)] if hold[0] == "holds" and not ended(hold[1].number, c) else []


def dropped(hold):
    return [ends(hold[1].number, "dangling")] if hold[0] == "holds" else []


def begin_row(found, q, c):
    if found is None:
        return unread_row(q)
    if found in (NOT_READ, TOO_EARLY):
        return refused(q, "BadHead" if found == NOT_READ else "BeforeEpoch")
    if found[0] == "not_kept":
        request = replace(q, phase="disabled", hold=NO_LOCK, seen=None, reader=CLOSED)
        return EventRow(ok("Uncacheable", found[1]), released("give-up", q.hold, c), request, NO_NEEDS)
    write = Write(len(c), q.entry, with_provenance_of(q.seen and q.seen[1], found[1]))
    request = replace(q, phase="begun", hold=NO_LOCK, seen=None, write=write, reader=("streaming", write.number, 0))
    return EventRow(ok("Begun"), [begins(write), *released("done", q.hold, c)], request, Needs(memory=True, number=True))


def begin_by(found, q, c):
    return begin_row(found, q, c) if q.phase == "miss" or q.phase == "stale" and not q.gave_read else refused(q, "WrongPhase")


def piece_by(data, last, q, c):
    if q.write is None:
        return refused(q, "WrongPhase")
    if is_done(q.write.number, c):
        return refused(q, "AfterEnd")
    return EventRow(ok("Written"), [appends(q.write.number, data, last)], q, SOME_MEMORY)


def next_by(data, over):
    return ok("Bytes", data) if data else ok("End") if over else ok("Pending")


def read_on(reader, c):
    if reader[0] == "streaming":
        return next_by(bytes_of(reader[1], c)[reader[2] :], is_done(reader[1], c))
    return ok("Bytes", reader[1]) if reader[0] == "unread" else ok("End")


def reader_after(reader, c):
    return ("streaming", reader[1], max(reader[2], len(bytes_of(reader[1], c)))) if reader[0] == "streaming" else SPENT


def has_news(reader, c):
    return reader[0] == "streaming" and reader[2] < len(bytes_of(reader[1], c))


def read_by_reader(q, c):
    if q.reader == CLOSED:
        return refused(q, "WrongPhase")
    return EventRow(read_on(q.reader, c), [], replace(q, reader=reader_after(q.reader, c)), Needs(memory=has_news(q.reader, c)))


def left(write):
    return [lands(write.number, False)] if write else []


def drop_row(q):
    return answer_alone(ok("Dropped"))._replace(changes=left(q.write) + dropped(q.hold))


def purge_row(entry, c):
    found = shown(stored_key(entry), c) is not None
    return answer_alone(ok("Purged", found))._replace(changes=[takes(alone(entry))] if found else [])


def done_so(write, first, far):
    if far[0] == "kept_out":
        return [lands(write.number, False), takes(alone(write.entry))]
    return [*first, *map(takes, far[1]), *([takes(alone(write.entry))] if far[0] == "cut" else [])]


def told_so(whole_answer, far):
    if far[0] == "whole_way":
        return ok(*whole_answer, far[1])
    return err("Memory", all_done(far[1])) if far[0] == "cut" else err(*far[1])


def lands_whole(write, weight):
    return [lands(write.number, True), puts(alone(write.entry), weight)]


def put_row(entry, verdict, far, c):
    if verdict is None:
        return unread_row(None)
    if verdict[0] != "Stored":
        return answer_alone(ok(*verdict) if verdict[0] == "Uncacheable" else err(verdict[0]))
    write = Write(len(c), entry, verdict[2])
    came = [begins(write), appends(write.number, verdict[1], True)]
    weight = weight_for(write, came)
    outcome, changes = told_so(("Finished", len(verdict[1])), far), came + done_so(write, lands_whole(write, weight), far)
    return EventRow(outcome, changes, None, Needs(True, True, a_body(alone(entry), weight)))


def is_alive(write, c):
    return any(has_number(write.number, it) for it in flying(stored_key(write.entry), c))


def finish_row(write, far, q, c):
    weight, length = weight_for(write, c), len(bytes_of(write.number, c))
    needs = Needs(memory=True, entering=a_body(alone(write.entry), weight))
    return EventRow(told_so(("Finished", length), far), done_so(write, lands_whole(write, weight), far), replace(q, write=None), needs)


def finish_by(far, q, c):
    if q.write is None:
        return refused(q, "WrongPhase")
    if is_alive(q.write, c):
        return finish_row(q.write, far, q, c)
    return refused(replace(q, write=None), "WriteRemoved")._replace(changes=[lands(q.write.number, False)])


def still(seen, write):
    return write if seen and write and has_number(seen[0], write) else None


def confirmed(q):
    return replace(q, phase="revalidated", hold=NO_LOCK, seen=None)


def renew_row(write, meta, far, q, c):
    new = replace(write, entry=q.entry, meta=meta)
    weight = weight_for(new, c)
    changes = done_so(new, [renews(write.number, q.entry, meta), weighs(alone(q.entry), weight)], far) + released("done", q.hold, c)
    return EventRow(told_so(("Revalidated",), far), changes, confirmed(q), Needs(memory=True, entering=a_renewal(alone(q.entry), weight)))


def confirm_row(found, far, write, q, c):
    if found == NOT_READ:
        return refused(q, "BadHead")
    if write is None:
        return refused(q, "NotStored")
    if found == TOO_EARLY:
        return refused(q, "BeforeEpoch")._replace(needs=SOME_MEMORY)
    if found[0] == "not_kept":
        return EventRow(ok("Uncacheable", found[1]), released("give-up", q.hold, c), confirmed(q), SOME_MEMORY)
    return renew_row(write, found[1], far, q, c)


def revalidate_by(found, far, q, c):
    if q.phase != "stale" or q.gave_read:
        return refused(q, "WrongPhase")
    return unread_row(q) if found is None else confirm_row(found, far, still(q.seen, body_of(stored_key(q.entry), c)), q, c)
