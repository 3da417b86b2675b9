"""Says what HTTP's rules make of a response to a GET, by the plain model of them (rules_model.py): which line decides, and what is passed over."""
import time

import rules_model as rules

OPTIONS = rules.Options()
ASKED = rules.Request(b"GET", b"http", b"", b"/", 1, [], ("none",), [], False)
BY_STATUS = {
    "status": "a status below 200 or above 599 is never stored",
    "partial": "a part isn't stored",
    "not-modified": "a 304 confirms what is stored, and renews its lines; it is never stored itself",
}
OF_REQUEST = {
    "authorization": "the request's Authorization (no public, s-maxage or must-revalidate lets its response answer others)",
    "request-no-store": "the request's Cache-Control: no-store",
}
USES = {
    "fresh": "by what is stored",
    "stale": "by what is stored, stale, as it lets",
    "meanwhile": "by what is stored, stale, while it is fetched anew",
    "validate": "after the origin was asked whether it is the same still",
    "pass": "by the origin alone",
}


def at(seconds):
    """A second, and the same for people."""
    try:
        return f"second {seconds} ({time.strftime('%a, %d %b %Y %H:%M:%S GMT', time.gmtime(seconds))})"
    except (ValueError, OverflowError):
        return f"second {seconds}"


def text(value):
    return value.decode("latin-1")


def source(lines):
    """The name of the field whose directives count."""
    for name in OPTIONS.targeted:
        if rules.targeted(lines, name) is not None:
            return text(name).title()
    return "Cache-Control"


def shown(lines, name):
    """The first directive of a name, as it stands in its line."""
    value = next(v for n, v in rules.says(lines, OPTIONS).ds if n == name)
    return f"{source(lines)}: {text(name)}" + ("" if value is None else f"={text(value)}")


def unreadable(lines, name):
    """Why the seconds of a directive can't be read, if they can't."""
    value = next(v for n, v in rules.says(lines, OPTIONS).ds if n == name)
    if value is None:
        return ", which has no value: 0 seconds"
    return "" if rules.seconds(value) is not None else ", which is no number of digits: 0 seconds"


def undated(value):
    return "" if rules.date_of(value) is not None else ", which is no date in GMT: it has passed"


def passed_over(lines):
    """What of Age and Date can't be read."""
    age, date = rules.first(lines, b"age"), rules.first(lines, b"date")
    if age is not None and rules.seconds(age.split(b",")[0].strip(b" \t")) is None:
        yield f"Age: {text(age)}, which is no number of digits: 0 seconds"
    if date is not None and rules.date_of(date) is None:
        yield f"Date: {text(date)}, which is no date in GMT: the moment at which it came counts"


def lifetime_by(response, came):
    """The line that gives the lifetime."""
    lines = response.lines
    s = rules.says(lines, OPTIONS)
    if rules.alone(s.ds, b"no-cache"):
        return shown(lines, b"no-cache")
    for name in (b"s-maxage", b"max-age"):
        if rules.has(s.ds, name):
            return shown(lines, name) + unreadable(lines, name)
    if s.expires is not None:
        return f"Expires: {text(s.expires)}{undated(s.expires)}"
    modified = rules.first(lines, b"last-modified")
    if modified is not None and rules.may_guess(s, response.status):
        return f"Last-Modified: {text(modified)} (a tenth of the time up to Date)" + undated(modified).replace(": it has passed", ": nothing is guessed")
    return "no line"


def refused_by(reason, response, came):
    """Why it isn't stored, and the line that says so."""
    lines = response.lines
    if reason in BY_STATUS:
        return f"status {response.status}: {BY_STATUS[reason]}"
    if reason == "private":
        value = next(v for n, v in rules.says(lines, OPTIONS).ds if n == b"private")
        why = "the cache is shared" if value is None or not rules.listed(value) else "it lists a field that a cache needs, so all of it is meant"
        return f"{shown(lines, b'private')} ({why})"
    if reason == "no-store":
        return shown(lines, b"no-store")
    if reason == "not-understood":
        return f"{shown(lines, b'must-understand')} (status {response.status} isn't known)"
    if reason == "vary-any":
        return "Vary: * (no request is like another)"
    if reason == "set-cookie":
        return "Set-Cookie (it is for one client)"
    if reason in OF_REQUEST:
        return OF_REQUEST[reason]
    if reason == "no-freshness":
        return f"no line: nothing gives a lifetime, and of status {response.status} none is guessed"
    if reason == "never-usable":
        return f"{lifetime_by(response, came)}: it is stale at once, and has no ETag or Last-Modified to ask by"
    return reason


def windows(response):
    """The windows for stale use, and what forbids them."""
    s = rules.says(response.lines, OPTIONS)
    forbids = [text(n) for n in (b"must-revalidate", b"proxy-revalidate", b"s-maxage") if rules.has(s.ds, n)]
    forbids += ["no-cache"] if rules.alone(s.ds, b"no-cache") else []
    for name in (b"stale-while-revalidate", b"stale-if-error"):
        if rules.has(s.ds, name):
            why = f": not used, since {' and '.join(forbids)} forbids stale use" if forbids else unreadable(response.lines, name)
            yield shown(response.lines, name) + why
    if forbids and not any(rules.has(s.ds, n) for n in (b"stale-while-revalidate", b"stale-if-error")):
        yield f"never used stale: {', '.join(forbids)}"


def asked_by(headers):
    """The request to which the response came: a GET with these lines."""
    return ASKED._replace(lines=[(name.strip().lower(), value.strip(b" \t")) for name, _, value in (it.partition(b":") for it in headers)])


def explained(data, came, headers=()):
    """What the rules make of a response that came at a second to a GET with these header lines, a line each."""
    asked = asked_by(headers)
    end = rules.head_end(data)
    response = rules.read_response(data[:end] if end else data, b"GET", came * rules.SECOND, OPTIONS)
    if isinstance(response, rules.Refusal):
        yield f"refused with 502: {response.reason}"
        return
    kept = rules.judge(asked, b"GET", response, came * rules.SECOND, came * rules.SECOND, OPTIONS)
    if isinstance(kept, rules.Unkept):
        yield f"not stored: {refused_by(kept.reason, response, came)}"
        return
    yield f"stored, {kept.lifetime} seconds by {lifetime_by(response, came)}"
    age = max(0, came * rules.SECOND - kept.arrival) // rules.SECOND
    if age:
        yield f"{age} seconds old as it came, by {'Age' if rules.age_value(response.lines) >= age else 'Date'}"
    yield from passed_over(response.lines)
    until = kept.arrival // rules.SECOND + kept.lifetime
    yield f"fresh before {at(until)}" if until > came else "stale at once: the origin is asked first"
    yield from windows(response)
    s = rules.says(response.lines, OPTIONS)
    for name in (b"private", b"no-cache"):
        gone = sorted(text(n) for n in rules.fields_of(s.ds, name) - rules.NEEDED if rules.values(response.lines, n))
        if gone:
            yield f"stored without {', '.join(gone)}: {shown(response.lines, name)}"
    names = rules.selecting(response.lines)
    if names:
        yield f"each request's own by {', '.join(map(text, names))}"
    if headers:
        yield f"the same request at once again is answered {USES[rules.use(asked, kept, came * rules.SECOND, OPTIONS)]}"
