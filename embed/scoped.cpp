// What is found, released with its scope: moved, filled again, and after the tier's end.
#include "cache_rules.h"
#include "cache_tier.h"
#include <cassert>
#include <string>
#include <type_traits>
#include <utility>

static_assert(!std::is_copy_constructible<cache_tier_scoped_response>::value, "a found has one owner");
static_assert(!std::is_copy_assignable<cache_tier_scoped_response>::value, "a found has one owner");
static_assert(std::is_nothrow_move_constructible<cache_tier_scoped_response>::value, "a found is moved");

// A number of the library's goes where a call takes one.
static int plain(const cache_rules_options *o, const cache_rules_request_head *q, cache_rules_message *out, std::uint8_t *room, std::size_t len) {
    return cache_rules_make_response(o, q, 400, q->reason, {1000, 0}, room, len, out);
}

static std::string body(const cache_tier_scoped_response &f) { return std::string(reinterpret_cast<const char *>(f->body.ptr), f->body.len); }

int main() {
    const cache_tier_options options = cache_tier_default_options(1 << 20, 2);
    const cache_tier_moment now = {1000, 0};
    const cache_tier_meta meta = cache_tier_meta_until({2000, 0}, now);
    const std::string head = "HTTP/1.1 200 OK\r\n\r\n";
    cache_tier_result answer;
    cache_tier *tier;
    assert(cache_tier_new(&tier, &options) == CACHE_TIER_OK);
    for (const std::string &name : {std::string("/a"), std::string("/b")})
        assert(cache_tier_put(tier, now, cache_tier_key_from_name(name.data(), name.size()), head.data(), head.size(), name.data(), name.size(), &meta,
                              &answer) == CACHE_TIER_STORED);
    cache_tier_scoped_response one, two;
    assert(!one && cache_tier_get(tier, now, cache_tier_key_from_name("/a", 2), one.get()) == CACHE_TIER_FOUND && one);
    assert(cache_tier_get(tier, now, cache_tier_key_from_name("/b", 2), two.get()) == CACHE_TIER_FOUND);
    cache_tier_scoped_response three(std::move(one));
    assert(!one && body(three) == "/a");
    three = std::move(two);
    assert(!two && body(three) == "/b" && (*three).head.status_code == 200);
    assert(cache_tier_get(tier, now, cache_tier_key_from_name("/a", 2), three.get()) == CACHE_TIER_FOUND);
    cache_rules_options rules = {};
    cache_rules_request_head request = {};
    cache_rules_message out = {};
    std::uint8_t room[4096];
    assert(plain(&rules, &request, &out, room, sizeof room) != 0);
    cache_tier_free(tier);
    assert(body(three) == "/a");
    return 0;
}
