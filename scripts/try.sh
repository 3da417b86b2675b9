#!/bin/sh
exec sh "$(dirname "$0")/../tools/dev/try.sh" "$@"
