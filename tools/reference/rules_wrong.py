"""Wrong rules: the plain model with one of its rules turned. Each must change an answer of the table in crates/rules_replay, else the table doesn't hold it."""

import json

import rules_calls
import rules_model as model


def error(code):
    return code >= 400 and code not in model.GONE


def chosen(**turned):
    """The options, some of them turned whatever a call says."""
    usual = rules_calls.options_of
    return lambda own: usual({**own, **turned})


def chosen_or_none(name):
    """The options without one, whatever a call says."""
    usual = rules_calls.options_of
    return lambda own: usual({it: value for it, value in own.items() if it != name})


TOLD, ADMITTED = model.told, model.admitted

# A name; the module and the name of the rule; what takes its place.
WRONG = (
    ("an error replaces what is good", model, "outlasts_error", lambda found, code, now: False),
    ("an error doesn't replace what isn't good", model, "outlasts_error", lambda found, code, now: found is not None and error(code)),
    ("what is stale at once replaces what is fresh", model, "outlasts_stale", lambda found, life, now: False),
    ("what is stale at once doesn't replace what is good", model, "outlasts_stale", lambda found, life, now: found is not None and model.is_good(found, now) and life == 0),
    ("nothing replaces what is fresh", model, "outlasts_stale", lambda found, life, now: found is not None and model.is_fresh(found, now)),
    ("a 404 is an error like others", model, "GONE", set()),
    ("a 410 doesn't say that there is nothing any more", model, "GONE", {404}),
    ("windows don't make it good", model, "is_good", lambda kept, now: model.is_fresh(kept, now)),
    ("it is good for ever", model, "is_good", lambda kept, now: True),
    ("fresh at the lifetime", model, "is_fresh", lambda kept, now: max(0, now - kept.arrival) <= kept.lifetime * model.SECOND),
    ("an error takes away what is stale", model, "removes",
     lambda found, code, now, why: found is not None and why not in model.OF_THE_EXCHANGE and (code in model.GONE or not model.is_good(found, now))),
    ("what is good is taken away", model, "removes", lambda found, code, now, why: found is not None and why not in model.OF_THE_EXCHANGE and (code in model.GONE or code < 400)),
    ("a reason of the exchange takes away what is stored", model, "OF_THE_EXCHANGE", set()),
    ("a 304 to a client's condition takes away what is stored", model, "OF_THE_EXCHANGE", model.OF_THE_EXCHANGE - {"not-modified"}),
    ("fields that a proxy writes are keyed", model, "is_unkeyed", lambda name, options: name == b"*"),
    ("the client's address is keyed", model, "is_unkeyed", lambda name, options: name in (b"*", b"via", b"te")),
    ("the client's address is never keyed", model, "is_unkeyed", lambda name, options: name in (b"*", b"via", b"te", b"x-forwarded-for")),
    ("what is dropped counts", rules_calls, "options_of", chosen(drops=[])),
    ("what odd requests cause is stored", rules_calls, "options_of", chosen(never_stored=[])),
    ("a 400 is stored", rules_calls, "options_of", chosen(never_stored=[405, 406, 408, 411, 412, 413, 414, 415, 416, 417, 421, 425, 426, 428, 429, 431, 505])),
    ("lines of any length are read", rules_calls, "options_of", chosen(most_line=2**30)),
    ("an odd set of names ruins the others", model, "MOST_SETS", 1),
    ("a list has five sets", model, "MOST_SETS", 5),
    ("17 names are keyed", model, "MOST_NAMES", 17),
    ("16 names aren't keyed", model, "MOST_NAMES", 15),
    ("names that stand twice count twice", model, "selecting", lambda lines: sorted(model.tokens(lines, b"vary"))),
    ("no Vary beside a list is the first key", model, "place_of", lambda names, sets: 0 if not names else next((i for i, it in enumerate(sets) if it.names == names), None)),
    ("the host counts", model, "counting", model.selecting),
    ("what is kept under another set moves what is fresh", model, "moves", lambda body, found, lines, came: bool(body) and found is not None and model.counting(found.lines) != model.counting(lines)),
    ("a new list takes away what it replaces", model, "moves", lambda body, found, lines, came: found is not None and model.counting(found.lines) != model.counting(lines) and not model.is_fresh(found, came)),
    ("what is kept under the same set moves what is stale", model, "moves", lambda body, found, lines, came: bool(body) and found is not None and not model.is_fresh(found, came)),
    ("nothing predicts that a page isn't stored", model, "LASTING", set()),
    ("a page of too many lines is worth waiting for", model, "LASTING", model.LASTING - {"too-many-lines"}),
    ("a page that varies by anything is worth waiting for", model, "LASTING", model.LASTING - {"vary-any"}),
    ("a page without a lifetime isn't worth waiting for", model, "LASTING", model.LASTING | {"no-freshness"}),
    ("who asks doesn't matter for what is predicted", model, "predicts_uncacheable", lambda why, request: why in model.LASTING),
    ("cookies don't matter for what is predicted", model, "predicts_uncacheable", lambda why, request: why in model.LASTING and not model.values(request.lines, b"authorization")),
    ("conditions go along", rules_calls, "options_of", chosen(fills_conditions=False)),
    ("a Range that goes along is keyed", model, "is_let_along", lambda name, options: name in model.CONDITIONS - {b"if-range"} and not options.fills_conditions),
    ("a condition that goes along is keyed", model, "is_let_along", lambda name, options: name in (b"range", b"if-range") and not options.fills_ranges),
    ("ranges and conditions are in second keys", model, "goes_along", lambda name: name not in model.FRAMES),
    ("what a proxy writes is in second keys", model, "goes_along", lambda name: name not in model.CONDITIONS | {b"range"}),
    ("Date is trusted all the same", rules_calls, "options_of", chosen(trusts_date=True)),
    ("Expires goes without Date where that isn't trusted", model, "date_value", lambda lines, came: came // model.SECOND),
    ("no lifetime is forced", rules_calls, "options_of", chosen(forced_lifetimes=[])),
    ("the last of forced lifetimes counts", model, "forced_by_status", lambda status, options: {code: n for code, n in options.forced_lifetimes}.get(status)),
    ("a forced lifetime passes over no-cache", model, "is_no_cache", lambda s, options: model.alone(s.ds, b"no-cache") and not options.forced_lifetimes),
    ("private counts all the same", rules_calls, "options_of", chosen(forces_private=False)),
    ("no-cache isn't passed over beside private", model, "is_no_cache", lambda s, options: model.alone(s.ds, b"no-cache")),
    ("what private lists stays where that is passed over", model, "fields_of", lambda ds, name: set()),
    ("no field of responses is dropped", rules_calls, "options_of", chosen(response_drops=[])),
    ("what was passed on loses fields too", model, "told",
     lambda response, request, asked, came, how, options, fetch="pass-on": TOLD(model.without_drops(response, options), request, asked, came, how, options, fetch)),
    ("what is shown keeps the fields", model, "without_drops", lambda response, options: response),
    ("no part of a query is dropped", rules_calls, "options_of", chosen(query_drops=[])),
    ("queries aren't sorted", rules_calls, "options_of", chosen(query_sorts=False)),
    ("the parts of a query are sorted whole", model, "part_name", lambda part: part),
    ("no prefix is dropped", model, "names_part", lambda word, name: name == word),
    ("every word is a prefix", model, "names_part", lambda word, name: name.startswith(word.rstrip(b"*"))),
    ("the query of a reference stays as it is", model, "key_of_reference", lambda request, path, options: model.key_of(request.scheme, request.host, path, options)),
    ("codings are passed on as they came", rules_calls, "options_of", chosen(encodings=[])),
    ("codings are those of the request in its order", model, "encoding_lines",
     lambda lines, options: [(b"Accept-Encoding", b", ".join(e for e in model.elements(lines, b"accept-encoding") if e in options.encodings))]),
    ("each weight is above 0", model, "is_above_zero", lambda parameter: True),
    ("a weight that can't be read is above 0", model, "QVALUE", rb".*[1-9].*|0.*"),
    ("x-gzip is no gzip", model, "admitted", lambda lines, coding: ADMITTED([(n, v.replace(b"X-GZIP", b"other")) for n, v in lines], coding)),
    ("all cookies are kept", rules_calls, "options_of", chosen_or_none("cookie_keeps")),
    ("cookies are kept in any case", model, "is_kept", lambda crumb, names: crumb.partition(b"=")[0].lower() in names),
    ("cookies are kept by how they begin", model, "is_kept", lambda crumb, names: crumb.startswith(tuple(names))),
)


def differs(calls, answers):
    return any(rules_calls.written(rules_calls.answered(json.loads(call))) != answer for call, answer in zip(calls, answers))


def unseen(calls, answers):
    """The names of those that no call of the table sees."""
    for name, module, rule, turned in WRONG:
        right = getattr(module, rule)
        setattr(module, rule, turned)
        try:
            if not differs(calls, answers):
                yield name
        finally:
            setattr(module, rule, right)
