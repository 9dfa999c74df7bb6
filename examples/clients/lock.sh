#!/usr/bin/env bash
# Runs a command while it holds a lock.
#
#     lock.sh http://127.0.0.1:2379/t/one KEY TTL COMMAND [ARGUMENT ...]
#
# The command finds its fencing number in FENCE; lock.py tells what that is for. Where the lock may be lost, since the
# host isn't reached or has no such lease any more, the command is ended by SIGTERM and the status is 1; else it is the
# command's. The time to live TTL is at least 4 seconds. The time is Linux's, which nobody sets back.
set -uo pipefail
url=$1 ttl=$3
key=$(printf %s "$2" | base64 | tr -d '\n')
shift 3
lease='' fence='' work='' watch=''
quarter=$((ttl * 25)) # hundredths of a second
[ "$ttl" -ge 4 ] || { echo "the time to live is at least 4 seconds" >&2; exit 2; }

# Hundredths of a second as curl takes seconds.
seconds() {
  printf '%d.%02d' "$(($1 / 100))" "$(($1 % 100))"
}

# Makes a call with a body, within so many hundredths of a second. The text of a refusal goes to standard error; the
# status is 3 where the same can't do better later: the code is not RESOURCE_EXHAUSTED and not UNAVAILABLE.
call() {
  local answer
  answer=$(curl -sS --max-time "$(seconds "$3")" --fail-with-body "$url/v3/$1" -d "$2") && { echo "$answer"; return; }
  echo "$1: $answer" >&2
  [[ $answer == *'"code":'* && ! $answer =~ '"code":'(8|14), ]] && return 3
  return 1
}

# The last member of this name in a text of compact JSON; none where it is left out.
member() {
  sed -n 's/.*"'"$2"'":"\([^"]*\)".*/\1/p' <<<"$1"
}

revoke() {
  [ -z "$lease" ] || call lease/revoke "{\"ID\":$lease}" 500 >/dev/null 2>&1
  lease='' fence=''
}

# The lock is free when the command has ended, and not before.
release() {
  [ -z "$watch" ] || kill "$watch" 2>/dev/null
  if [ -n "$work" ]; then
    kill "$work" 2>/dev/null
    wait "$work"
  fi
  revoke
}
trap release EXIT
trap 'exit 130' INT
trap 'exit 143' TERM

# The time in hundredths of a second.
look_at_clock() {
  read -r now _ </proc/uptime
  now=$((10#${now/./}))
}

# The hundredths for which the lease is there for sure; lease.py tells why it is not all of its time to live.
count_left() {
  look_at_clock
  left=$((asked + ttl * 100 - 200 - now))
}

# Takes a lease under a number by chance; lease.py tells why.
grant() {
  local number
  number=$(od -An -N7 -tu8 /dev/urandom | tr -d ' ')
  look_at_clock
  asked=$now
  call lease/grant "{\"TTL\":$ttl,\"ID\":$number}" 500 >/dev/null && lease=$number
}

# Keeps the lease alive. It fails where the lease may have ended.
keep_alive() {
  local moment answer
  count_left
  [ "$left" -gt 0 ] || return 1
  moment=$now
  # Where nobody answers, there is time to try again.
  answer=$(call lease/keepalive "{\"ID\":$lease}" "$((left < quarter ? left : quarter))") || return 0
  [ -n "$(member "$answer" TTL)" ] || return 1
  asked=$moment
}

# Takes the lock, or waits until it is free, for a quarter of the time to live at most.
try() {
  local compare put range answer
  compare="{\"key\":\"$key\",\"target\":\"CREATE\",\"result\":\"EQUAL\",\"create_revision\":0}"
  put="{\"request_put\":{\"key\":\"$key\",\"lease\":$lease}}"
  range="{\"request_range\":{\"key\":\"$key\"}}"
  answer=$(call kv/txn "{\"compare\":[$compare],\"success\":[$put],\"failure\":[$range]}" 500) || return
  case $answer in
    *'"succeeded":true'*) fence=$(member "$answer" revision) ;;
    # Its own, by an earlier try whose answer was lost.
    *"\"lease\":\"$lease\""*) fence=$(member "$answer" create_revision) ;;
    *) wait_for_delete "$(member "$answer" revision)" ;;
  esac
}

wait_for_delete() {
  local line create="{\"key\":\"$key\",\"start_revision\":$(($1 + 1)),\"filters\":[\"NOPUT\"]}"
  exec {lines}< <(exec curl -sN --max-time "$(seconds "$quarter")" "$url/v3/watch" -d "{\"create_request\":$create}")
  watch=$!
  while IFS= read -r line && [[ $line == *'"created":true'* ]]; do :; done <&"$lines"
  kill "$watch" 2>/dev/null
  watch=''
  exec {lines}<&-
}

until [ -n "$fence" ] && count_left && [ "$left" -gt 0 ]; do
  [ -z "$lease" ] || keep_alive || revoke
  [ -n "$lease" ] || grant || [ $? -ne 3 ] || exit 1
  [ -z "$lease" ] || try
  sleep "0.$((RANDOM % 5))"
done

FENCE=$fence "$@" <&0 &
work=$!
while kill -0 "$work" 2>/dev/null; do
  count_left
  if [ "$left" -le 0 ] || { [ "$now" -ge "$((asked + quarter))" ] && ! keep_alive; }; then
    echo "lost $fence" >&2
    exit 1
  fi
  sleep 0.2
done
wait "$work"
status=$?
work=''
exit "$status"
