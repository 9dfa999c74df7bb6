"""Tests of check-server: requests and their answers, whatever way they come in.

Each test is given the host, and raises `Wrong` where something is not as it is wanted.
"""
import random
import time

from shared.http_client import SECONDS, chunk, head, in_both_forms, path, request, text
from shared.report import Wrong, want
from shared.wanted import (ALL, KEY, LARGEST_BODY, PUT, READ, REFUSALS, alarmed, answer_of, done, found, granted,
                           header, kept_alive, row)

ACTIVATE = '{"action":"ACTIVATE","alarm":"NOSPACE"}'
TXN = ('{"success":[{"request_put":{"key":"YQ==","value":"MQ=="}},{"request_range":{"key":"YQ=="}},'
       '{"request_delete_range":{"key":"Yg=="}}]}')
TXN_ANSWER = ('"responses":[{"response_put":{"header":{"revision":"4"}}},{"response_range":{"count":"1",'
              f'"header":{{"revision":"4"}},"kvs":[{row("YQ==", 4, 4, "MQ==", 1)}]}}}},'
              '{"response_delete_range":{"header":{"revision":"4"}}}],"succeeded":true')
AT_4 = header(4)
EACH_CALL = [
    ("kv/put", '{"key":"Zm9v","value":"YmFy"}', done(2)),
    ("kv/range", READ, found(row("Zm9v", 2, 2, "YmFy", 1), 2)),
    ("kv/deleterange", '{"key":"Zm9v","prev_kv":true}',
     answer_of(f'{{"deleted":"1",{header(3)},"prev_kvs":[{row("Zm9v", 2, 2, "YmFy", 1)}]}}')),
    ("kv/txn", TXN, answer_of(f"{{{AT_4},{TXN_ANSWER}}}")),
    ("kv/compaction", '{"revision":"4"}', done(4)),
    ("kv/compaction", '{"revision":"4"}', REFUSALS["Compacted"]),
    ("lease/grant", '{"TTL":"10"}', granted(1, 10, 4)),
    ("lease/keepalive", '{"ID":"1"}', kept_alive(1, 10, 4)),
    # The clock may have gone on by a second.
    ("lease/timetolive", '{"ID":"1"}', answer_of(f'{{"ID":"1","TTL":"10","grantedTTL":"10",{AT_4}}}'),
     answer_of(f'{{"ID":"1","TTL":"9","grantedTTL":"10",{AT_4}}}')),
    ("kv/lease/timetolive", '{"ID":"9"}', answer_of(f'{{"ID":"9","TTL":"-1",{AT_4}}}')),
    ("lease/leases", "{}", answer_of(f'{{{AT_4},"leases":[{{"ID":"1"}}]}}')),
    ("kv/lease/leases", "", answer_of(f'{{{AT_4},"leases":[{{"ID":"1"}}]}}')),
    ("lease/revoke", '{"ID":"1"}', done(4)),
    ("kv/lease/revoke", '{"ID":"1"}', REFUSALS["LeaseNotFound"]),
    ("maintenance/alarm", "{}", done(4)),
    ("maintenance/alarm", ACTIVATE, alarmed(4)),
    ("kv/put", PUT, REFUSALS["NoSpace"]),
    ("maintenance/alarm", '{"action":"DEACTIVATE","alarm":"NOSPACE"}', alarmed(4)),
    ("maintenance/status", "{}", answer_of(f'{{"dbSize":"49152","dbSizeInUse":"192",{AT_4}}}')),
    ("maintenance/defragment", "{}", done(4)),
    ("watch", '{"cancel_request":{}}', REFUSALS["NotOffered"]),
    ("watch", "{}", REFUSALS["BadBody"]),
]


def each_call_by_one_connection(host):
    tenant = host.tenant()
    with host.connect() as client:
        for call, body, *wanted in EACH_CALL:
            client.expect(tenant, call, body, *wanted)


def requests_in_one_write(host):
    tenant = host.tenant()
    asked = [("POST", "kv/put", PUT, done(2)), ("POST", "kv/none", PUT, REFUSALS["NoPath"]),
             ("GET", "kv/put", "", REFUSALS["NotPost"]), ("POST", "kv/put", PUT, done(3)),
             ("POST", "kv/put", "{", REFUSALS["BadBody"]), ("POST", "kv/compaction", '{"revision":"2"}', done(3)),
             ("POST", "kv/range", READ, done(3))]
    with host.connect() as client:
        client.send(b"".join(request(path(tenant, call), body, method=method) for method, call, body, _ in asked))
        for method, _, _, wanted in asked:
            client.answer(method).check(wanted)
        client.expect(tenant, "kv/put", PUT, done(4))


def two_hundred_puts_in_pieces_that_end_anywhere(host):
    tenant, chance = host.tenant(), random.Random(1)
    asked = request(path(tenant, "kv/put"), PUT) * 200
    with host.connect() as client:
        while asked:
            size = chance.randrange(1, 400)
            client.send(asked[:size])
            asked = asked[size:]
        for revision in range(2, 202):
            client.answer().check(done(revision))


def a_head_that_waits_for_100_continue(host):
    tenant = host.tenant()
    with host.connect() as client:
        for revision in [2, 3]:
            client.send(head(path(tenant, "kv/put"), [f"content-length: {len(PUT)}", "expect: 100-continue"]))
            want(client.answer().status == 100, "no 100 comes")
            client.send(PUT.encode())
            client.answer().check(done(revision))


def a_refusal_to_one_that_waits_for_100_continue(host):
    with host.connect() as client:
        client.send(head(path("nobody", "kv/put"), [f"content-length: {len(PUT)}", "expect: 100-continue"]))
        answer = client.answer()
        if answer.status == 100:
            client.send(PUT.encode())
            answer = client.answer()
        answer.check(REFUSALS["NoTenant"])


def a_chunked_body_in_odd_pieces(host):
    tenant = host.tenant()
    with host.connect() as client:
        for revision, size in enumerate([1, 2, 3, 7, 100], 2):
            chunks = b"".join(chunk(PUT[at:at + size].encode()) for at in range(0, len(PUT), size))
            asked = head(path(tenant, "kv/put"), ["transfer-encoding: chunked"]) + chunks + b"0\r\n\r\n"
            for at in range(0, len(asked), size):
                client.send(asked[at:at + size])
            client.answer().check(done(revision))


def a_chunked_body_with_trailers(host):
    tenant, lines = host.tenant(), ["transfer-encoding: chunked", "trailer: x-sum"]
    with host.connect() as client:
        for revision in [2, 3]:
            client.send(head(path(tenant, "kv/put"), lines) + chunk(PUT[:5].encode()))
            client.send(f"{len(PUT[5:]):X};one=1\r\n{PUT[5:]}\r\n0\r\nx-sum: 5\r\nx-more: 6\r\n\r\n".encode())
            client.answer().check(done(revision))


def a_coding_beside_chunks_is_not_offered(host):
    tenant = host.tenant()
    for coding in ["gzip, chunked", "identity, chunked"]:
        with host.connect() as client:
            lines = [f"transfer-encoding: {coding}", "connection: close"]
            client.send(head(path(tenant, "kv/put"), lines) + chunk(PUT.encode()) + b"0\r\n\r\n")
            client.answer().check(REFUSALS["NotOffered"])
    with host.connect() as client:
        client.expect(tenant, "kv/range", READ, done(1))


def a_body_of_no_bytes(host):
    tenant = host.tenant()
    ends = [head(path(tenant, "{}"), ["content-length: 0"]), head(path(tenant, "{}")),
            head(path(tenant, "{}"), ["transfer-encoding: chunked"]) + b"0\r\n\r\n"]
    with host.connect() as client:
        for end in ends:
            client.send(end.replace(b"{}", b"kv/put"))
            client.answer().check(REFUSALS["NoKey"])
            client.send(end.replace(b"{}", b"lease/leases"))
            client.answer().check(done(1))


def other_methods_on_a_known_path(host):
    tenant = host.tenant()
    with host.connect() as client:
        for method in ["GET", "PUT", "OPTIONS", "DELETE", "PATCH", "TRACE", "PRI", "post"]:
            client.send(request(path(tenant, "kv/put"), PUT, method=method))
            client.answer(method).check(REFUSALS["NotPost"])
        client.expect(tenant, "kv/range", READ, done(1))


def a_head_request(host):
    tenant, (status, body) = host.tenant(), REFUSALS["NotPost"]
    with host.connect() as client:
        client.send(head(path(tenant, "kv/put"), method="HEAD"))
        answer = client.answer("HEAD")
        answer.check_head()
        want(answer.status == status, f"status {answer.status}")
        want(answer.values("content-length") in [[], [str(len(body))]], f"{answer.lines}")
        client.expect(tenant, "kv/range", READ, done(1))


def targets_that_are_no_path(host):
    tenant = host.tenant()
    behind = ["", "/v3", "/v3/", "/v3/kv/put/", "/v3//kv/put", "/v3beta/kv/put", "/v3/kv/Put", "/v3/kv%2fput",
              "/v3/lease/leases2", "?/v3/kv/put"]
    shapes = ["/", "/t", "/t/", "/t//v3/kv/put", "/v3/kv/put", "/t/nobody/v3/kv/none", "*", "http://any.host",
              f"/T/{tenant}/v3/kv/put", *(f"/t/{tenant}{end}" for end in behind)]
    with host.connect() as client:
        for shape in shapes:
            client.send(request(shape, PUT, method="OPTIONS" if shape == "*" else "POST"))
            try:
                client.answer().check(REFUSALS["NoPath"])
            except Wrong as wrong:
                raise Wrong(f"{shape}: {wrong}") from None
        client.expect(tenant, "kv/range", READ, done(1))


def names_of_no_tenant(host):
    tenant = host.tenant()
    with host.connect() as client:
        for name in ["nobody", tenant.upper(), tenant + "-", "%74" + tenant[1:], "..", "a" * 300]:
            client.expect(name, "kv/put", PUT, REFUSALS["NoTenant"])


def send_what_is_taken(client, data):
    """The server may answer, and close, before it has taken all."""
    try:
        client.send(data)
    except OSError:
        pass


def the_order_of_refusals(host):
    tenant, larger = host.tenant(), b"x" * (LARGEST_BODY + 1)
    asked = [("GET", "/t/nobody/v3/none", larger, "NoPath"), ("GET", path("nobody", "kv/put"), larger, "NoTenant"),
             ("POST", path("nobody", "kv/put"), larger, "NoTenant"), ("GET", path(tenant, "kv/put"), larger, "NotPost"),
             ("POST", path(tenant, "kv/put"), larger, "TooLarge"),
             ("POST", path(tenant, "kv/range"), '{"key":"","limit":"x"}', "BadBody"),
             ("POST", path(tenant, "kv/range"), '{"key":"","limit":"1"}', "NoKey")]
    for method, target, body, name in asked:
        with host.connect() as client:
            send_what_is_taken(client, request(target, body, method=method))
            try:
                client.answer(method).check(REFUSALS[name])
            except Wrong as wrong:
                raise Wrong(f"{method} {target}: {wrong}") from None


def any_host_and_other_lines_of_a_head(host):
    tenant = host.tenant()
    heads = [["host: elsewhere.example:99"], ["host: [::1]"], ["host:"], ["cookie: a=b", "Host: b", "user-agent: \xe9"],
             ["content-type: text/plain", "host: a", "accept: image/png"],
             ["origin: http://elsewhere.example", "HOST: c", "upgrade: h2c"]]
    with host.connect() as client:
        for revision, lines in enumerate(heads, 2):
            asked = [f"POST {path(tenant, 'kv/put')} HTTP/1.1", *lines, f"content-length: {len(PUT)}", "", PUT]
            client.send("\r\n".join(asked).encode("latin-1"))
            client.answer().check(done(revision))


def a_target_with_a_scheme_and_a_host(host):
    tenant = host.tenant()
    with host.connect() as client:
        for revision, target in enumerate(["http://any.host/", "http://127.0.0.1:1/", "http://any.host:80/"], 2):
            client.send(request(target.removesuffix("/") + path(tenant, "kv/put"), PUT))
            client.answer().check(done(revision))
        client.send(request("http://any.host" + path(tenant, "kv/put") + "?x=/t/nobody", PUT))
        client.answer().check(done(5))


def a_query_is_left_out(host):
    tenant = host.tenant()
    with host.connect() as client:
        for revision, query in enumerate(["?", "?x=1", "?/t/nobody/v3/kv/none", "??", "?a=%00&b"], 2):
            client.send(request(path(tenant, "kv/put") + query, PUT))
            client.answer().check(done(revision))


def a_request_of_http_1_0(host):
    tenant = host.tenant()
    with host.connect() as client:
        client.send(request(path(tenant, "kv/put"), PUT, version="HTTP/1.0"))
        answer = client.answer()
        want((answer.status, answer.body) == done(2), f"{answer}")
        want(answer.values("content-type") == ["application/json"], f"{answer.lines}")
        want(answer.values("content-length") == [str(len(answer.body))], f"{answer.lines}")
        client.ended()


def a_connection_that_is_to_be_closed(host):
    tenant = host.tenant()
    with host.connect() as client:
        client.send(request(path(tenant, "kv/put"), PUT, ["connection: close"]))
        answer = client.answer()
        answer.check(done(2))
        want(answer.values("connection") == ["close"], f"{answer.lines}")
        client.ended()


def a_head_just_under_64_kb(host):
    tenant = host.tenant()
    with host.connect() as client:
        for revision in [2, 3]:
            lines = [f"x-{number}: {'y' * 1000}" for number in range(63)]
            lines.append("x-last: " + "y" * (65_000 - len(request(path(tenant, "kv/put"), PUT, [*lines, "x-last: "]))))
            client.send(request(path(tenant, "kv/put"), PUT, lines))
            client.answer().check(done(revision))


def sent_and_refused(host, data):
    """Sends what `hyper` itself refuses: it answers so, or closes."""
    with host.connect() as client:
        send_what_is_taken(client, data)
        told = client.rest()
    want(told == b"" or told.startswith(b"HTTP/1.1 4"), f"told {told[:200]!r}")


def heads_that_are_refused(host):
    tenant = host.tenant()
    put = request(path(tenant, "kv/put"), PUT)
    many = "".join(f"x-{number}: {'y' * 1000}\r\n" for number in range(200)).encode()
    heads = {
        "200 KB": put.replace(b"\r\n", b"\r\n" + many, 1),
        "80 KB without an end": put[:put.index(b"\r\n") + 2] + many[:80_000],
        "one line of 200 KB": put.replace(b"host: here", b"host: " + b"h" * 200_000),
        "a target of 100 KB": put.replace(b"/t/", b"/t/" + b"t" * 100_000),
        "two lengths": put.replace(b"here", b"here\r\ncontent-length: 3"),
        "a length and chunks": put.replace(b"here", b"here\r\ntransfer-encoding: chunked"),
        "no host": put.replace(b"host: here\r\n", b""),
        "two hosts": put.replace(b"here", b"here\r\nhost: there"),
        "a length that is none": put.replace(b"content-length: ", b"content-length: x"),
        "a length below 0": put.replace(b"content-length: ", b"content-length: -"),
        "a line without a colon": put.replace(b"host: here", b"host here"),
        "no version": put.replace(b" HTTP/1.1", b""),
        "a version that is none": put.replace(b"HTTP/1.1", b"HTTP/7.1"),
        "the front of HTTP/2": b"PRI * HTTP/2.0\r\n\r\nSM\r\n\r\n",
        "the front of TLS": b"\x16\x03\x01\x02\x00\x01\x00\x01\xfc\x03\x03" + bytes(range(200)),
        "a zero byte": put.replace(b"here", b"he\x00re"),
    }
    for name, data in heads.items():
        try:
            sent_and_refused(host, data)
            with host.connect() as fresh:
                fresh.expect(tenant, "kv/range", READ, done(1))
        except Wrong as wrong:
            raise Wrong(f"{name}: {wrong}") from None


def padded(front, size):
    return front.encode() + b" " * (size - len(front))


def the_largest_body(host):
    tenant = host.tenant()
    full = '{"key":"YQ==","value":"' + "AAAA" * ((LARGEST_BODY - 25) // 4) + '"}'
    asked = [("kv/range", padded(READ, LARGEST_BODY), done(1)), ("kv/range", b"x" * LARGEST_BODY, REFUSALS["BadBody"]),
             ("kv/put", padded(full, LARGEST_BODY), REFUSALS["NoSpace"])]
    with host.connect() as client:
        for call, body, wanted in asked:
            for form in in_both_forms(path(tenant, call), body):
                client.send(form)
                client.answer().check(wanted)
        client.expect(tenant, "maintenance/alarm", "{}", alarmed(1))


def a_large_value_and_its_answer(host):
    tenant, value = host.large(), text(bytes(range(256)) * 6_000)
    wanted = found(row("YQ==", 2, 2, value, 1), 2)
    with host.connect() as client:
        client.expect(tenant, "kv/put", f'{{"key":"YQ==","value":"{value}"}}', done(2))
        client.send(request(path(tenant, "kv/range"), KEY) * 3)
        for _ in range(3):
            client.answer().check(wanted)


def a_body_of_one_byte_more(host):
    tenant = host.tenant()
    for body in [padded(PUT, LARGEST_BODY + 1), b"x" * (LARGEST_BODY + 1)]:
        for form in in_both_forms(path(tenant, "kv/put"), body):
            with host.connect() as client:
                client.send(form)
                client.answer().check(REFUSALS["TooLarge"])
                check_end_or_use(client, tenant)


def check_end_or_use(client, tenant):
    """The connection has ended, or is as good as before."""
    send_what_is_taken(client, request(path(tenant, "kv/range"), READ))
    try:
        goes_on = client.more(time.monotonic() + SECONDS)
    except ConnectionResetError:
        goes_on = False
    if goes_on:
        client.answer().check(done(1))


def a_body_that_is_far_too_large(host):
    """The answer has to come whole, even if not all of the body is taken."""
    tenant, body = host.tenant(), b" " * (8 * LARGEST_BODY)
    for form in in_both_forms(path(tenant, "kv/put"), body):
        with host.connect() as client:
            send_what_is_taken(client, form)
            client.answer().check(REFUSALS["TooLarge"])
    with host.connect() as fresh:
        fresh.expect(tenant, "kv/range", READ, done(1))


def bodies_that_are_cut(host):
    tenant = host.tenant()
    by_length, by_chunks = in_both_forms(path(tenant, "kv/put"), PUT.encode())
    cut = [by_length[:-1], by_length[:-20], by_length[:-len(PUT)], by_chunks[:-1], by_chunks[:-5], by_chunks[:-10]]
    for form in cut:
        for end in ["end_sending", "close"]:
            with host.connect() as client:
                client.send(form)
                time.sleep(0.02)
                getattr(client, end)()
                if end == "end_sending":
                    want(not client.rest().startswith(b"HTTP/1.1 200"), f"{form!r} is answered as whole")
    time.sleep(0.2)
    with host.connect() as client:
        client.expect(tenant, "kv/range", READ, done(1))
        client.send(by_length + by_length[:-1])
        client.answer().check(done(2))
    time.sleep(0.2)
    with host.connect() as client:
        client.expect(tenant, "kv/range", READ, done(2))


def chunks_that_are_none(host):
    tenant = host.tenant()
    front = head(path(tenant, "kv/put"), ["transfer-encoding: chunked"])
    rests = [b"x\r\n", b"-1\r\n{}\r\n", b"FFFFFFFFFFFFFFFFF\r\n{}", b"2\r\n{}xx", b"2\n{}\n0\n\n",
             b"%x\r\n%s0\r\n\r\n" % (len(PUT), PUT.encode())]
    for rest in rests:
        with host.connect() as client:
            client.send(front + rest)
            client.end_sending()
            want(not client.rest().startswith(b"HTTP/1.1 200"), f"{rest!r} is answered as a body")
    with host.connect() as client:
        client.expect(tenant, "kv/range", READ, done(1))


def two_tenants_that_do_not_see_each_other(host):
    one, two = host.tenant(), host.other()
    with host.connect() as client:
        client.expect(one, "kv/put", PUT, done(2))
        client.expect(two, "kv/range", f"{{{ALL}}}", done(1, 8))
        client.expect(two, "lease/grant", '{"TTL":"10"}', granted(1, 10, 1, 8))
        client.expect(one, "lease/leases", "{}", done(2))
        client.expect(one, "maintenance/alarm", ACTIVATE, alarmed(2))
        client.expect(two, "kv/put", '{"key":"YQ==","value":"Mg=="}', done(2, 8))
        client.expect(one, "kv/range", KEY, found(row("YQ==", 2, 2, "MQ==", 1), 2))
        client.expect(two, "kv/range", KEY, found(row("YQ==", 2, 2, "Mg==", 1), 2, 8))


def fifty_connections_to_two_tenants_at_once(host):
    """Each put of a tenant is answered another revision, and none is left out."""
    tenants, rounds = {host.tenant(): 7, host.other(): 8}, 8
    clients = [(tenant, host.connect()) for _ in range(25) for tenant in tenants]
    told = {tenant: [] for tenant in tenants}
    for _ in range(rounds):
        for tenant, client in clients:
            client.send(request(path(tenant, "kv/put"), PUT))
        for tenant, client in clients:
            told[tenant].append(client.answer())
    for tenant, cluster in tenants.items():
        wanted = {done(revision, cluster) for revision in range(2, 25 * rounds + 2)}
        want({(answer.status, answer.body) for answer in told[tenant]} == wanted, f"{tenant}: other answers")
        for answer in told[tenant]:
            answer.check_head()
    for _, client in clients:
        client.close()


def neighbours_that_stall_in_a_body(host):
    one, two = host.tenant(), host.tenant()
    by_length, by_chunks = in_both_forms(path(two, "kv/put"), PUT.encode())
    stalled = [host.connect() for _ in range(40)]
    for number, client in enumerate(stalled):
        client.send((by_length if number % 2 else by_chunks)[:-10])
    time.sleep(0.1)
    with host.connect() as client:
        for revision in range(2, 22):
            client.expect(one, "kv/put", PUT, done(revision))
            client.expect(two, "kv/put", PUT, done(revision))
    stalled[1].send(by_length[-10:])
    stalled[1].answer().check(done(22))
    for client in stalled:
        client.close()


def a_client_that_reads_nothing(host):
    """It asks for 60 MB and holds up nobody; later it reads all of it."""
    tenant, value = host.large(), text(b"v" * 1_500_000)
    wanted = found(row("YQ==", 2, 2, value, 1), 2)
    with host.connect() as client, host.connect() as silent:
        client.expect(tenant, "kv/put", f'{{"key":"YQ==","value":"{value}"}}', done(2))
        silent.send(request(path(tenant, "kv/range"), KEY) * 30)
        time.sleep(0.2)
        for _ in range(20):
            client.expect(tenant, "kv/range", READ, done(2))
        for _ in range(30):
            silent.answer().check(wanted)


def three_hundred_connections(host):
    tenant = host.tenant()
    clients = [host.connect() for _ in range(300)]
    for client in clients:
        client.send(request(path(tenant, "kv/put"), PUT))
    told = [client.answer() for client in clients]
    wanted = {done(revision) for revision in range(2, 302)}
    want({(answer.status, answer.body) for answer in told} == wanted, "other answers")
    for client in clients:
        client.expect(tenant, "kv/range", READ, done(301))
        client.close()


TESTS = [each_call_by_one_connection, requests_in_one_write, two_hundred_puts_in_pieces_that_end_anywhere,
         a_head_that_waits_for_100_continue, a_refusal_to_one_that_waits_for_100_continue, a_chunked_body_in_odd_pieces,
         a_chunked_body_with_trailers, a_coding_beside_chunks_is_not_offered, a_body_of_no_bytes,
         other_methods_on_a_known_path, a_head_request, targets_that_are_no_path, names_of_no_tenant, the_order_of_refusals, any_host_and_other_lines_of_a_head,
         a_target_with_a_scheme_and_a_host, a_query_is_left_out, a_request_of_http_1_0, a_connection_that_is_to_be_closed,
         a_head_just_under_64_kb, heads_that_are_refused, the_largest_body, a_large_value_and_its_answer,
         a_body_of_one_byte_more, a_body_that_is_far_too_large, bodies_that_are_cut, chunks_that_are_none,
         two_tenants_that_do_not_see_each_other, fifty_connections_to_two_tenants_at_once, neighbours_that_stall_in_a_body,
         a_client_that_reads_nothing, three_hundred_connections]
