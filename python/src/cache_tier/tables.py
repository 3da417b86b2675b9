"""The structs, numbers and texts of the headers."""
# Written by tools/dev/interface.py: change the tables in embed, and run it with --write.
import ctypes

U64 = ctypes.c_uint64
NONE = 2**64 - 1
OK = 0
NO_REQUEST = 1
ID_IN_USE = 2
WRONG_PHASE = 3
IS_WAITING = 4
AFTER_END = 5
BAD_HEAD = 6
WRITE_REMOVED = 7
BEFORE_EPOCH = 8
NUMBERS_SPENT = 10
TOO_HEAVY = 11
TOO_LONG = 12
MEMORY = 13
FOLDER = 14
NOT_STORED = 17
BAD_ARGUMENT = 20
NOT_NEW = 21
NO_ITEM = 22
BUFFER_TOO_SMALL = 23
BODY_TOO_LARGE = 24
OPENED = 32
FOUND = 33
MISS = 34
WAIT_ENDED = 35
WAITING = 36
BEGUN = 37
WRITTEN = 38
DATA = 39
PENDING = 40
END = 41
CLOSED = 42
PURGED = 43
NOT_FOUND = 44
STORED = 45
GIVEN_UP = 46
SAVED = 47
RESTORED = 48
ITEM = 49
REVALIDATED = 50
NO_HIT = 51
RULES_NEED_MORE = 64
RULES_PARSED = 65
RULES_REJECTED = 66
RULES_DONE = 67
RULES_STORE = 68
RULES_DO_NOT_STORE = 69
RULES_MISMATCH = 70
RULES_DATA = 71
RULES_BODY_END = 72
NAMES = {
    1: "NoRequest",
    2: "IdInUse",
    3: "WrongPhase",
    4: "IsWaiting",
    5: "AfterEnd",
    6: "BadHead",
    7: "WriteRemoved",
    8: "BeforeEpoch",
    10: "NumbersSpent",
    11: "TooHeavy",
    12: "TooLong",
    13: "Memory",
    14: "Folder",
    17: "NotStored",
    20: "BadArgument",
    21: "NotNew",
    22: "NoItem",
    23: "BufferTooSmall",
    24: "BodyTooLarge",
}
TEXTS = {
    1: "no request with this number is open",
    2: "a request with this number is already open",
    3: "the request's phase does not allow this call",
    4: "the request is waiting for another request's permit",
    5: "the last chunk was already written",
    6: "the head cannot be parsed or stored",
    7: "a purge or an eviction removed the write",
    8: "a moment lies before 1970",
    10: "no internal number is left",
    11: "the total weight of a shard would overflow",
    12: "a shard has the greatest number of entries",
    13: "out of memory",
    14: "no shard was saved",
    17: "the response is still being written, or was removed or replaced",
    20: "an argument is out of range",
    21: "the tier has already been used",
    22: "there is no such entry, file or body",
    23: "the buffer is too small",
    24: "the body is larger than max_body_bytes",
}
UNKNOWN = "no status of this library"
PERMITS = ("none", "write", "wait")
LOCK_STATUSES = (None, "done", "transient-error", "give-up", "dangling", "wait-timeout", "age-timeout")
FRAMINGS = ("none", "length", "chunked", "close")
PLANS = (None, "lookup", "pass", "respond")
REUSES = (None, "fresh", "stale", "while-revalidating", "after-validation", "bypass")
FETCHES = (None, "pass", "full", "conditional", "unconditional")
FWD = ("none", "uri-miss", "vary-miss", "miss", "stale", "request", "method", "bypass")
REASONS = {
    0: "",
    1: "target-too-long",
    2: "head-too-long",
    3: "bare-line-end",
    4: "bad-request-line",
    5: "version",
    6: "method",
    7: "too-many-fields",
    8: "folded",
    9: "blank-before-colon",
    10: "bad-field",
    11: "length-and-coding",
    12: "bad-length",
    13: "coding-in-1-0",
    14: "unknown-coding",
    15: "bad-coding",
    16: "several-hosts",
    17: "no-host",
    18: "bad-host",
    19: "other-scheme",
    20: "other-host",
    21: "bad-target",
    22: "bad-status-line",
    23: "switched",
    24: "last-forward",
    25: "content",
    26: "precondition",
    27: "no-store",
    28: "status",
    29: "partial",
    30: "not-modified",
    31: "request-no-store",
    32: "not-understood",
    33: "private",
    34: "vary-any",
    35: "authorization",
    36: "set-cookie",
    37: "no-freshness",
    38: "never-usable",
    39: "too-many-lines",
    40: "bad-chunk",
    41: "bad-trailer",
    42: "stored-is-good",
    43: "never-store",
    44: "field-too-long",
    50: "no-answer",
    51: "only-if-cached",
    52: "stale-while-revalidate",
    53: "stale-if-error",
    54: "stale-if-down",
    55: "purged",
    56: "unstored",
    57: "body-too-long",
    58: "too-busy",
}
MESSAGE_FLAGS = (
    "connection-close",
    "accepts-trailers",
    "expects-continue",
    "is-head",
    "only-if-cached",
    "forces-validation",
    "has-date",
)
OPTION_FLAGS = (
    "honor_request_directives",
    "serve_authorized",
    "store_set_cookie",
    "fill_on_range",
    "fill_on_head",
    "fill_on_conditional",
    "normalize_percent",
    "heuristic_freshness",
    "stale_despite_s_maxage",
    "add_x_forwarded_for",
    "https",
    "trust_date",
)
DEFAULTS = {
    "max_entries": None,
    "lock_age": 10,
    "lock_timeout": None,
    "lru_shards": 16,
    "eviction_seed": 0,
    "max_body_bytes": 0,
}
RULES_DEFAULTS = {
    "honor_request_directives": True,
    "serve_authorized": False,
    "store_set_cookie": False,
    "fill_on_range": True,
    "fill_on_head": True,
    "fill_on_conditional": True,
    "normalize_percent": False,
    "heuristic_freshness": True,
    "stale_despite_s_maxage": False,
    "add_x_forwarded_for": False,
    "https": False,
    "trust_date": True,
    "max_head_bytes": 65536,
    "max_request_line_bytes": 16384,
    "max_fields": 250,
    "max_ranges": 8,
    "max_heuristic_ttl": 86400,
    "stale_while_revalidate": 0,
    "stale_if_error": 0,
    "stale_if_down": 0,
    "max_field_bytes": 8192,
}


def struct(name, words):
    """A struct whose fields are words of 8 bytes, or of a type that stands after a colon."""
    fields = []
    for word in words.split():
        field, _, kind = word.partition(":")
        of, _, count = kind.partition("*")
        made = U64 * int(of) if of.isdigit() else {"": U64, **KINDS}[of]
        fields.append((field, made * int(count) if count else made))
    KINDS[name] = type(name, (ctypes.Structure,), {"_fields_": fields})
    return KINDS[name]


KINDS = {"pointer": ctypes.c_void_p}
Moment = struct("Moment", "seconds nanoseconds")
Slice = struct("Slice", "ptr:pointer len")
Options = struct("Options", "max_bytes max_entries lock_age lock_timeout lru_shards eviction_seed hash_seed max_body_bytes reserved:4")
Result = struct("Result", "status value evicted fresh complete permit body_removed entry_removed value2 shards_corrupt reserved:2")
Result.body_len = property(lambda self: self.value)
Result.lock_status = property(lambda self: self.value)
Result.shards_ok = property(lambda self: self.value)
Result.entry_count = property(lambda self: self.value)
Result.weight = property(lambda self: self.value)
Result.shards_failed = property(lambda self: self.value2)
Result.shards_missing = property(lambda self: self.value2)
Result.entries = property(lambda self: self.value2)
Head = struct("Head", "status_code field_count fresh_until:Moment created:Moment updated:Moment provenance:Moment stale_while_revalidate stale_if_error external_bytes fields:Slice body_len")
Response = struct("Response", "result:Result head:Head body:Slice held keep:12")
Meta = struct("Meta", "fresh_until:Moment created:Moment updated:Moment provenance:Moment stale_while_revalidate stale_if_error external_bytes reserved")
Entry = struct("Entry", "status foreign primary:Slice variance:Slice user_tag:Slice external_bytes")
File = struct("File", "status content:Slice")
Stats = struct("Stats", "found misses bodies body_bytes head_bytes external_bytes entries weight evicted reserved:3")
RulesSpan = struct("RulesSpan", "start end")
RulesOptions = struct("RulesOptions", "flags max_head_bytes max_request_line_bytes max_fields max_ranges max_heuristic_ttl stale_while_revalidate stale_if_error stale_if_down max_field_bytes reserved:2 settings:pointer settings_len")
RulesRequestHead = struct("RulesRequestHead", "status buf_needed head_len error_code reason plan minor_version framing body_len flags method:RulesSpan host:RulesSpan target:RulesSpan key:RulesSpan fields:RulesSpan written:RulesSpan decision_fields:RulesSpan buf:pointer buf_len")
RulesResponseHead = struct("RulesResponseHead", "status buf_needed head_len reason status_code minor_version framing body_len flags fields:RulesSpan written:RulesSpan reserved:3 buf:pointer buf_len")
RulesCacheStatus = struct("RulesCacheStatus", "hit fwd fwd_status stored collapsed detail fetch connection_close")
RulesBodyPart = struct("RulesBodyPart", "prefix:RulesSpan start end")
RulesMessage = struct("RulesMessage", "status buf_needed reason status_code framing body_len flags value part_count key_count head:RulesSpan tail:RulesSpan reserved:2 parts:RulesBodyPart*16")
RulesMessage.reuse = property(lambda self: self.value)
RulesMessage.fetch = property(lambda self: self.value)
RulesMessage.serve_stale = property(lambda self: self.value)
RulesMessage.bad_line = property(lambda self: self.value)
RulesStoreDecision = struct("RulesStoreDecision", "status buf_needed reason purge predicts_uncacheable needs_vary_index place meta:Meta served_head:Head head:RulesSpan fields:RulesSpan body:RulesSpan reserved")
RulesBodyDecoder = struct("RulesBodyDecoder", "state:8")
RulesBodyChunk = struct("RulesBodyChunk", "status buf_needed reason start end consumed trailers:RulesSpan")

# The parameters of each export: t the tier, n a number, b bytes with their length, m metadata, o options; s a struct with its text, w a buffer,
# p an address, q parts with their number; and the struct that is written.
EXPORTS = {
    "init": ("to", Result),
    "end": ("t", None),
    "open": ("tnnnbb", Result),
    "poll": ("tnnn", Result),
    "begin": ("tnnnbnm", Result),
    "revalidate": ("tnnnbnm", Result),
    "write": ("tnnb", Result),
    "finish": ("tn", Result),
    "close": ("tn", Result),
    "give_up": ("tn", Result),
    "purge": ("tnbb", Result),
    "put": ("tnnnbbbbnm", Result),
    "get": ("tnnnbb", Response),
    "lookup": ("tnnn", Response),
    "lookup_stale": ("tn", Response),
    "read": ("tn", Response),
    "peek": ("tnb", Response),
    "evicted_entry": ("tn", Entry),
    "lru_snapshot": ("tn", Result),
    "lru_entry": ("tn", Entry),
    "lru_save": ("t", Result),
    "lru_file": ("tn", File),
    "lru_load": ("tnb", Result),
    "lru_restore": ("t", Result),
    "weight": ("t", Result),
    "get_stats": ("t", Stats),
}
RULES = {
    "check_options": ("s", RulesMessage),
    "prepare_settings": ("sw", RulesMessage),
    "parse_request": ("sbw", RulesRequestHead),
    "parse_response": ("snnnbw", RulesResponseHead),
    "secondary_keys": ("ssbwq", RulesMessage),
    "update_vary_index": ("ssnnbbw", RulesStoreDecision),
    "decide_reuse": ("sssnn", RulesMessage),
    "stale_on_error": ("sssnnn", RulesMessage),
    "forward_request": ("ssnsbw", RulesMessage),
    "decide_store": ("ssnsnnnnbsw", RulesStoreDecision),
    "freshen": ("sssnsnnnnw", RulesStoreDecision),
    "serve_stored": ("sssnnnpwq", RulesMessage),
    "reuse_stored": ("sssnnnpwq", RulesMessage),
    "relay_response": ("sssnnnnpwq", RulesMessage),
    "make_response": ("ssnnnnw", RulesMessage),
    "invalidated_keys": ("sssw", RulesMessage),
    "decode_body": ("pbw", RulesBodyChunk),
    "encode_chunk": ("nw", RulesMessage),
}
