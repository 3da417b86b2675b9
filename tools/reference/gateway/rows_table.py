"""The gateway's decisions: each a table of which the first row that holds counts. Pure functions of what a state says; no state is looked at here."""

ERRORS_THAT_REMOVE = (404, 410)
IDEMPOTENT = (b"GET", b"HEAD", b"OPTIONS", b"TRACE", b"PUT", b"DELETE")


def look_row(found, reuse, whole, fresh, past, permit, only_if_cached, predicted, too_old=False):
    """By what is found under the place (RFC 9111, 4). `fresh`: by the tier; `past`: it was looked up as if nothing were. `too_old`: by a purge of
    its tag, which is none yet."""
    if found and not too_old:
        return reuse_row(reuse, whole, fresh, past, permit, only_if_cached)
    if only_if_cached:
        return "unavailable"
    if predicted:
        return "unstored"
    if permit == "wait":
        return "wait"
    return "full"


def reuse_row(reuse, whole, fresh, past, permit, only_if_cached):
    """By how what is found may answer."""
    if reuse == "bypass":
        return "unavailable" if only_if_cached else "pass"
    if reuse in ("fresh", "stale"):
        return "hit" if whole else "collapse"
    if reuse == "while-revalidating":
        return "collapse" if not whole else "hit_and_validate" if permit == "write" else "hit"
    if only_if_cached:
        return "unavailable"
    if fresh and not past:
        return "look_past"
    if permit == "wait":
        return "wait"
    return "conditional" if whole else "full"


def share_row(does, reuse, stale_answers, is_response):
    """Of who waited for a fetch that failed: by what it finds itself, without the lock. `is_response`: a 5xx came, and something stale answered it."""
    if does in ("hit", "collapse", "pass", "unavailable"):
        return does
    if stale_answers and reuse in ("after-validation", "while-revalidating"):
        return "stale_on_error"
    return "alone" if is_response else "generated"


def wait_row(over, moved, shares, refused, ended):
    """How a wait ends, by the tier's word: `over`: the whole of its time; `moved`: what it waits for began; `refused`: the tier had no memory."""
    if shares:
        return "share"
    if over:
        return "alone"
    if moved:
        return "again"
    if refused or ended in ("give-up", "wait-timeout"):
        return "alone"
    return "again" if ended else "wait"


def response_row(fetch, status, unasked, stale_answers, good, revalidates, stores):
    """By a final head. `unasked`: a 304 to a GET or HEAD that had no condition. `good`: what was found is, and no error replaces it."""
    if unasked:
        return "bad"
    if fetch == "pass":
        return "relay_and_purge"
    if fetch == "unstored":
        return "relay_unstored"
    if stale_answers:
        return "stale_on_error"
    if good and status >= 400 and status not in ERRORS_THAT_REMOVE:
        return "relay"
    if revalidates:
        return "revalidate"
    if stores:
        return "store"
    return "relay_and_remove"


def revalidate_row(status, other, may_freshen):
    """By what a 304, or a 200 to HEAD, says of what was found."""
    if other and status == 304:
        return "again"
    if may_freshen:
        return "freshen_and_answer" if status == 304 else "freshen_and_relay"
    return "answer" if status == 304 else "relay"


def may_store(kept, purged, superseded, too_long, too_much):
    return kept and not purged and not superseded and not too_long and not too_much


def body_row(origin, tailed, grows_past, reads, unread_past, refused):
    """By bytes of a body. `reads`: its own client is sent this body; `unread_past`: too many come for nobody; `refused`: the tier had no memory."""
    if tailed:
        return "tail" if reads else "truncate"
    if origin == "relaying":
        return "relay"
    if refused or unread_past:
        return "truncate"
    if grows_past:
        return "begin_tail" if reads else "truncate"
    return "store"


def end_row(origin, tailed, refused):
    """By the end of a body."""
    if origin == "relaying" and not tailed:
        return "complete"
    if tailed:
        return "end_tail"
    return "truncate" if refused else "finish"


def closed_row(origin, why, close_delimited, method, spoke, body_sent, sent_again):
    """By how the origin's connection ended."""
    if origin == "awaiting_head":
        if why == "unused" and method in IDEMPOTENT and not spoke and not body_sent and not sent_again:
            return "send_again"
        return "timeout" if why == "timeout" else "no_answer"
    return "end" if close_delimited and why == "clean" else "truncate"


def client_row(origin, tailed, owes_body):
    """What becomes of the origin's side when its client goes: what is stored goes on, and what isn't heard yet, where its request went whole."""
    if origin == "idle":
        return "nothing"
    if origin == "storing" or origin == "awaiting_head" and not owes_body:
        return "goes_on"
    return "truncate" if tailed else "close_origin"


def is_reusable(response_closes, whole_response, bytes_left, owes_body):
    """Whether a connection to the origin may serve another exchange."""
    return whole_response and not response_closes and not bytes_left and not owes_body
