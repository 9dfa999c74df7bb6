#!/usr/bin/env bash
# Prints the value of a key and each later one, through lost connections.
#
#     watch.sh http://127.0.0.1:2379/t/one KEY
#
# A line has the revision, `put` and the value, or `delete` where the key isn't there. After a lost connection it goes
# on behind the last revision seen; where that was compacted meanwhile, or the host began anew, it reads the key.
set -uo pipefail
url=$1
key=$(printf %s "$2" | base64 | tr -d '\n')
revision='' shown='' watch=''
trap '[ -z "$watch" ] || kill "$watch" 2>/dev/null' EXIT

# The first member of this name in a text of compact JSON; none where it is left out.
member() {
  [[ $1 =~ \"$2\":\"([^\"]*)\" ]] && echo "${BASH_REMATCH[1]}"
}

# Prints a line, unless the last one was the same.
show() {
  [ "$*" = "$shown" ] || echo "$@"
  shown=$*
}

# Reads the key. A refusal that no try changes ends the program: the code is not RESOURCE_EXHAUSTED and not UNAVAILABLE.
read_key() {
  local answer
  answer=$(curl -sS --max-time 10 --fail-with-body "$url/v3/kv/range" -d "{\"key\":\"$key\"}") || {
    echo "$answer" >&2
    [[ $answer != *'"code":'* || $answer =~ '"code":'(8|14), ]] || exit 1
    return 1
  }
  revision=$(member "$answer" revision) cluster=$(member "$answer" cluster_id)
  if [[ $answer == *'"kvs"'* ]]; then
    show "$(member "$answer" mod_revision)" put "$(member "$answer" value | base64 -d)"
  else
    show "$revision" delete
  fi
}

# Whether it is the host that was read. After a stop of it, which loses all, its revisions begin again.
is_same() {
  [ "$(member "$1" cluster_id)" = "$cluster" ] && [ "$(member "$1" revision)" -ge "$revision" ]
}

# Takes in one line with events. They end at the last one's revision and not at the header's: there may be more.
take() {
  local event
  while IFS= read -r event; do
    revision=$(member "$event" mod_revision)
    case $event in
      *'"type":"DELETE"'*) show "$revision" delete ;;
      *) show "$revision" put "$(member "$event" value | base64 -d)" ;;
    esac
  done < <(grep -o '{"kv":{[^}]*}[^}]*}' <<<"$1")
}

# Follows the watch to its end. Half a line, where it breaks off, is not read.
follow() {
  local line create="{\"key\":\"$key\",\"start_revision\":$((revision + 1)),\"progress_notify\":true}"
  exec {lines}< <(exec curl -sSN --fail --keepalive-time 20 "$url/v3/watch" -d "{\"create_request\":$create}")
  watch=$!
  while IFS= read -r line; do
    case $line in
      *'"created":true'*) is_same "$line" || { revision=''; break; } ;;
      *'"canceled":true'*) revision=''; break ;;
      *'"events":'*) take "$line" ;;
      *) revision=$(member "$line" revision) ;; # word of progress
    esac
  done <&"$lines"
  kill "$watch" 2>/dev/null
  exec {lines}<&-
}

while true; do
  [ -n "$revision" ] || read_key
  [ -z "$revision" ] || follow
  sleep "$((RANDOM % 2)).$((RANDOM % 10))"
done
