"""Calls of HTTP's rules as lines of JSON, answered by the plain model: what rules-replay writes for the same lines.

    python3 tools/reference/rules_calls.py < calls.jsonl

A line is an object with the name of a call and what it is given; each character of a string stands for a byte. Its answer is a list: a word, and
what belongs to it."""

import json
import re
import sys

import rules_model as model

# The directives of a response that a rule asks for (RFC 9111, 5.2.2; RFC 5861).
ASKED = {b"max-age", b"s-maxage", b"no-cache", b"no-store", b"private", b"public", b"must-revalidate", b"proxy-revalidate", b"must-understand",
         b"stale-while-revalidate", b"stale-if-error"}


def raw(text):
    return text.encode("latin-1")


def text_of(data):
    return data.decode("latin-1")


def lines_of(rows):
    return [(raw(name), raw(value)) for name, value in rows]


def options_of(chosen):
    """The options, those that a call doesn't name as usual."""
    own = {}
    for name, value in chosen.items():
        if name in ("lifetimes", "forced_lifetimes"):
            own[name] = tuple((code, seconds) for code, seconds in value)
        elif name == "never_stored":
            own[name] = tuple(value)
        elif isinstance(value, list):
            own[name] = tuple(raw(it) for it in value)
        else:
            own[name] = raw(value) if isinstance(value, str) else value
    return model.Options(**own)


def kept_of(it):
    windows = it.get("stale_while_revalidate", 0), it.get("stale_if_error", 0)
    return model.Kept(it["status"], lines_of(it["lines"]), it["arrival"], it["lifetime"], *windows)


class Refused(Exception):
    """A head that isn't read: the answer in its place."""


def request_of(call, options):
    data = raw(call.get("request", ""))
    end = model.head_end(data)
    if end is None:
        head = data
        while head[:2] == b"\r\n":
            head = head[2:]
        if len(data) <= options.most_head:
            raise Refused(["more"])
        long = len(head.partition(b"\r\n")[0]) > options.most_target
        raise Refused(["refused", 414, "target-too-long"] if long else ["refused", 431, "head-too-long"])
    found = model.read_request(data[:end], options)
    if isinstance(found, model.Refusal):
        raise Refused(["refused", found.status, found.reason])
    return found, end


def response_of(call, options):
    data = raw(call.get("response", ""))
    end = model.head_end(data)
    if end is None:
        raise Refused(["more"] if len(data) <= options.most_head else ["refused", 502, "head-too-long"])
    found = model.read_response(data[:end], raw(call["method"]), call.get("came", 0), options)
    if isinstance(found, model.Refusal):
        raise Refused(["refused", found.status, found.reason])
    return found, end


def shown_lines(lines):
    return [[text_of(name), text_of(value)] for name, value in lines]


def shown_framing(framing):
    return [framing[0], framing[1] if len(framing) > 1 else None]


def shown_request(it, end):
    return ["request", text_of(it.method), text_of(it.scheme), text_of(it.host), text_of(it.target), it.minor, shown_lines(it.lines),
            *shown_framing(it.framing), it.options and [text_of(x) for x in it.options], int(it.takes_trailers), end]


def shown_response(it):
    return ["response", it.status, it.minor, shown_lines(it.lines), *shown_framing(it.framing)]


def shown_judgement(it):
    if isinstance(it, model.Unkept):
        return ["not_stored", it.reason, int(it.removes), int(it.predicts_uncacheable)]
    length = model.number(model.first(it.lines, b"content-length"))
    lines = model.without(it.lines, {b"content-length"})
    return ["kept", it.status, shown_lines(lines), length, it.arrival, it.lifetime, it.stale_while_revalidate, it.stale_if_error]


def shown_answer(it):
    parts = [None] if it.parts is None else [len(it.parts), *(x for before, a, b in it.parts for x in (text_of(before), a, b))]
    return ["answer", it.status, shown_lines(it.lines), *parts, text_of(it.after)]


def shown_tags(tags):
    return [x for is_weak, text in tags for x in ("weak" if is_weak else "strong", text_of(text))]


def shown_directives(found):
    return ["directives", *(x for name, value in found for x in (text_of(name), None if value is None else text_of(value)))]


def by_last(found, lines, of):
    """The directives that a rule asks for, each where its key stood last: the crates pass over the others, as a dictionary has no order."""
    text = b", ".join(model.values(lines, of))
    place = {m[1]: at for at, m in enumerate(re.finditer(model.MEMBER + rb"(?:[ \t]*,[ \t]*|[ ]*$)", text))}
    return sorted((it for it in found if it[0] in ASKED), key=lambda it: place[it[0]])


def shown_place(it):
    return ["place", it] if isinstance(it, int) else ["list", text_of(it)]


def number_or_none(n):
    return ["none"] if n is None else ["number", n]


def truth(holds):
    return ["true" if holds else "false"]


def by_text(name, call, options):
    """The answer of a call over texts and lines alone; None where it is none of these."""
    text, lines, of = raw(call.get("text", "")), lines_of(call.get("lines", [])), raw(call.get("name", ""))
    if name == "tag_of":
        tag = model.tag_of(text)
        return ["none"] if tag is None else ["tag", *shown_tags([tag])]
    if name == "tags_of":
        tags = model.tags_of(lines, of)
        return ["none"] if tags is None else ["tags", *shown_tags(tags)]
    if name == "targeted":
        found = model.targeted(lines, of)
        return ["none"] if found is None else shown_directives(by_last(found, lines, of))
    if name == "ranges":
        parts = model.ranges(text, call["length"], options)
        return ["none"] if parts is None else ["parts", *(x for part in parts for x in part)]
    if name == "error_of":
        return ["number", model.error_of(kept_of(call["kept"]) if "kept" in call else None, options)]
    plain = {
        "head_end": lambda: number_or_none(model.head_end(text, call.get("from", 0))),
        "digits": lambda: number_or_none(model.number(text)),
        "seconds": lambda: number_or_none(model.seconds(text)),
        "date_of": lambda: number_or_none(model.date_of(text)),
        "elements": lambda: ["elements", [text_of(it) for it in model.elements(lines, of)]],
        "directives": lambda: shown_directives(model.directives(lines, of)),
        "listing": lambda: shown_place(model.listing(lines, raw(call.get("list", "")), raw(call.get("token", "")))),
        "selecting": lambda: ["names", *(text_of(it) for it in model.selecting(lines))],
        "arrival": lambda: ["moment", model.arrival(lines, call["asked"], call["came"], options)],
    }
    return plain[name]() if name in plain else None


def by_request(name, call, options):
    """The answer of a call over a request alone; None where it is none of these."""
    if name not in ("read_request", "key", "plan", "is_reload", "only_if_cached", "secondary", "second_keys", "target_of", "forward", "fill"):
        return None
    request, end = request_of(call, options)
    if name == "plan":
        plan = model.plan(request, options)
        return [plan.reason] + ([plan.status] if plan.reason == "last-forward" else []) if isinstance(plan, model.Refusal) else ["look"] if plan[0] == "look" else list(plan)
    if name == "target_of":
        key = model.target_of(request, raw(call["text"]), options)
        return ["none"] if key is None else ["key", text_of(key)]
    if name == "fill":
        method, lines = model.fill(request, options)
        return ["fill", text_of(method), shown_lines(lines)]
    return {
        "read_request": lambda: shown_request(request, end),
        "key": lambda: ["key", text_of(model.key(request, options))],
        "is_reload": lambda: truth(model.is_reload(request, options)),
        "only_if_cached": lambda: truth(model.only_if_cached(request, options)),
        "second_keys": lambda: ["keys", *(text_of(it) for it in model.second_keys(request, raw(call.get("list", "")), options))],
        "secondary": lambda: ["key", text_of(model.secondary([raw(it).lower() for it in call["names"]], request))],
        "forward": lambda: ["lines", shown_lines(model.forward(request, raw(call["peer"]), options))],
    }[name]()


def by_kept(name, call, options):
    """The answer of a call over a request and what is kept; None where it is none of these."""
    if name not in ("use", "may_spare", "validate", "answer"):
        return None
    request, kept = request_of(call, options)[0], kept_of(call["kept"])
    if name == "validate":
        lines = model.validate(request, kept)
        return ["none"] if lines is None else ["lines", shown_lines(lines)]
    if name == "answer":
        how = [raw(it) for it in call["how"]]
        return shown_answer(model.answer(request, kept, call.get("length"), call["now"], how, options, raw(call["boundary"]) if "boundary" in call else None))
    if name == "may_spare":
        return truth(model.may_spare(request, kept, call["now"], call.get("status"), options))
    return [model.use(request, kept, call["now"], options)]


def by_response(name, call, options):
    """The answer of a call over a request and a response."""
    request, response = request_of(call, options)[0], response_of(call, options)[0]
    asked, came = call.get("asked", 0), call.get("came", 0)
    found = kept_of(call["found"]) if "found" in call else None
    if name == "moves":
        return truth(model.moves(raw(call.get("list", "")), found, response.lines, came))
    if name == "judge":
        return shown_judgement(model.judge(request, raw(call["method"]), response, asked, came, options, found))
    if name == "told":
        return shown_answer(model.told(response, request, asked, came, [raw(it) for it in call["how"]], options, call.get("fetch", "pass-on")))
    if name == "invalidates":
        return ["keys", *(text_of(it) for it in model.invalidates(request, response, options))]
    kept = kept_of(call["kept"])
    merged = model.freshen_by_head(kept, call["length"], response) if name == "freshen_by_head" else model.freshen(kept, response)
    if merged is None:
        return ["none"]
    if name == "renew":
        stored = model.stored_from(kept, response, merged, options)
        return shown_judgement(model.judge(request, b"GET", stored, asked, came, options, kept, response.status))
    return shown_response(merged)


def answered(call):
    """What a call gives."""
    name, options = call["call"], options_of(call.get("options", {}))
    try:
        if name == "read_response":
            response, end = response_of(call, options)
            return [*shown_response(response), int(response.closes), end]
        for group in (by_text, by_request, by_kept):
            found = group(name, call, options)
            if found is not None:
                return found
        return by_response(name, call, options)
    except Refused as why:
        return why.args[0]


def escaped(text):
    return "".join(c if " " <= c <= "~" and c not in '"\\' else f"\\u{ord(c):04x}" for c in text)


def written(it):
    """An answer as rules-replay writes it."""
    if isinstance(it, list):
        return "[" + ", ".join(written(x) for x in it) + "]"
    if isinstance(it, str):
        return f'"{escaped(it)}"'
    return "null" if it is None else str(it)


def main():
    for line in sys.stdin:
        print(written(answered(json.loads(line))))


if __name__ == "__main__":
    main()
