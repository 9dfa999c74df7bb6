"""What the server is asked in many tests, and what it has to answer: a status and a body."""
import re

from shared.places import FORMATS

LARGEST_BODY = 2_097_152
WATCHES = 64
ALL = '"key":"AA==","range_end":"AA=="'
KEY = '{"key":"YQ=="}'
PUT = '{"key":"YQ==","value":"MQ=="}'
# A key that no test puts, so that the answer is a header.
READ = '{"key":"Zm9v"}'


def header(revision, cluster=7):
    numbers = f'"cluster_id":"{cluster}","member_id":"1","raft_term":"1","revision":"{revision}"'
    return f'"header":{{{numbers}}}'


def answer_of(text):
    return 200, text.encode()


def done(revision, cluster=7):
    """The answer that has a header and nothing else."""
    return answer_of(f"{{{header(revision, cluster)}}}")


def row(key, created, modified, value, version, lease=""):
    """A row as an answer has it; the key and the value are base64."""
    lease = f'"lease":"{lease}",' if lease else ""
    value = f'"value":"{value}",' if value else ""
    front = f'"create_revision":"{created}","key":"{key}",{lease}'
    return f'{{{front}"mod_revision":"{modified}",{value}"version":"{version}"}}'


def found(of_row, revision, cluster=7):
    """The answer to a range that finds one row."""
    return answer_of(f'{{"count":"1",{header(revision, cluster)},"kvs":[{of_row}]}}')


def alarmed(revision):
    """The answer that lists the alarm."""
    return answer_of(f'{{"alarms":[{{"alarm":"NOSPACE","memberID":"1"}}],{header(revision)}}}')


def granted(id_of, seconds, revision, cluster=7):
    return answer_of(f'{{"ID":"{id_of}","TTL":"{seconds}",{header(revision, cluster)}}}')


def kept_alive(id_of, seconds, revision):
    return answer_of(f'{{"result":{{"ID":"{id_of}","TTL":"{seconds}",{header(revision)}}}}}\n')


def put_event(*of_row):
    return f'{{"kv":{row(*of_row)}}}'


def delete_event(key, revision):
    return f'{{"kv":{{"key":"{key}","mod_revision":"{revision}"}},"type":"DELETE"}}'


def created_line(revision):
    return f'{{"result":{{"created":true,{header(revision)}}}}}\n'.encode()


def events_line(events, revision):
    return f'{{"result":{{"events":[{",".join(events)}],{header(revision)}}}}}\n'.encode()


def cancel_line(compacted, revision):
    return f'{{"result":{{"canceled":true,"compact_revision":"{compacted}",{header(revision)}}}}}\n'.encode()


def table_of_refusals():
    """Of each refusal its status and body, by its name in the table of docs/FORMATS.md."""
    with open(FORMATS, encoding="utf-8") as file:
        rows = re.findall(r"^\| \d+ \| (\w+) \| (\d+) \| (\d+) \| (.+) \|$", file.read(), re.MULTILINE)
    body = '{"code":%s,"error":"%s","message":"%s"}'
    return {name: (int(status), (body % (code, told, told)).encode()) for name, code, status, told in rows}


REFUSALS = table_of_refusals()
