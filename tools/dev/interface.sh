#!/bin/sh
# Prints the number of the interface of C, as the header has it.
version=$(sed -n 's/^#define CACHE_TIER_VERSION \([0-9]*\)\b.*$/\1/p' "$(dirname "$0")/../../embed/cache_tier.h")
echo $((version / 1000))
