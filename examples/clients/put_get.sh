#!/usr/bin/env bash
# Puts a value under a key, reads it back and prints it.
#
#     put_get.sh http://127.0.0.1:2379/t/one KEY VALUE
set -euo pipefail
url=$1

# Makes a call with a body. The text of a refusal goes to standard error.
call() {
  local answer
  answer=$(curl -sS --max-time 10 --fail-with-body --data-binary @- "$url/v3/$1" <<<"$2") ||
    { echo "$answer" >&2; return 1; }
  echo "$answer"
}

key=$(printf %s "$2" | base64 | tr -d '\n')
value=$(printf %s "$3" | base64 | tr -d '\n')
call kv/put "{\"key\":\"$key\",\"value\":\"$value\"}" >/dev/null
answer=$(call kv/range "{\"key\":\"$key\"}")
# The answer is compact JSON with one row. A value that is empty is left out.
sed -n 's/.*"value":"\([^"]*\)".*/\1/p' <<<"$answer" | base64 -d
