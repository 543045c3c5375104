"""The turns and answers of recorded sessions, as terms of the definitions. tools/meaning reads them."""
import ipaddress
import urllib.parse

ERRORS = {'timed_out': 'errors.TimedOut', 'locally_closed': 'errors.LocallyClosed', 'cids_exhausted': 'errors.CidsExhausted'}
CODES = {0x33: 'Datagram', 0x100: 'NoError', 0x103: 'StreamCreation', 0x104: 'ClosedCriticalStream', 0x105: 'FrameUnexpected', 0x106: 'Frame',
         0x107: 'ExcessiveLoad', 0x108: 'Id', 0x109: 'Settings', 0x10a: 'MissingSettings', 0x10b: 'RequestRejected', 0x10e: 'Message',
         0x200: 'Decompression', 0x170d7b68: 'SessionGone', 0x3994bd84: 'BufferedStreamRejected'}


class Skipped(Exception):
    """The case can't be written with such terms."""


def listed(items):
    return '(' + ' ∷ '.join(list(items) + ['[]']) + ')'


def text(data):
    return listed(str(b) for b in data)


def hexadecimal(word):
    return text(b'' if word == '-' else bytes.fromhex(word))


def fields(words):
    last = {}
    for word in words:
        name, value = word.split('=')
        last[bytes.fromhex(name)] = bytes.fromhex(value)
    order = sorted(last, key=lambda n: (not n.startswith(b':'), n))
    return listed(f'({text(n)}, {text(last[n])})' for n in order)


def fact(word):
    return {'off': 'facts.Disabled', 'unsupported': 'facts.Unsupported'}.get(word, f'(facts.Limit {word})')


def close(words):
    return f'(record {{ code = {words[0]}; reason = {hexadecimal(words[1])} }})'


def loss(words):
    kind, rest = words[0], words[1:]
    if kind == 'transport':
        return f'(losses.TransportError {rest[0]} {hexadecimal(rest[1])})'
    if kind in ('connection', 'application'):
        return f'(losses.{kind.capitalize()}Closed {close(rest)})'
    return {'version_mismatch': 'losses.VersionMismatch', 'reset': 'losses.Reset', 'timed_out': 'losses.TimedOut', 'cids_exhausted': 'losses.CidsExhausted'}[kind]


def address(word):
    kind, digits, port = word.split(':')
    return f'(addresses.{kind.upper()} {int(digits, 16)} {port})'


def lookup(word):
    if word == 'none':
        return 'lookups.NotFound'
    return f'(lookups.Fault {hexadecimal(word[6:])})' if word.startswith('fault:') else f'(lookups.Found {address(word)})'


def outcome(word):
    if word.startswith('name:'):
        return f'(outcomes.InvalidServerName {hexadecimal(word[5:])})'
    if word.startswith('address:'):
        return f'(outcomes.InvalidRemoteAddress {address(word[8:])})'
    return {'proceed': 'outcomes.Proceed', 'stopping': 'outcomes.EndpointStopping', 'cids': 'outcomes.CidsExhausted'}[word]


def url_host(name):
    if name.startswith('['):
        raise Skipped('an IPv6 host')
    try:
        octets = ipaddress.IPv4Address(name).packed
        return f'(hosts.Ipv4 (record {{ octets = {text(octets)} }}))'
    except ValueError:
        pass
    if not name or not all(c.isalnum() and c.isascii() or c in '-.' for c in name) or name.split('.')[-1][:1].isdigit() or 'xn--' in name.lower():
        raise Skipped('a host')
    return f'(hosts.Domain {text(name.lower().encode())})'


def url_parts(url):
    """The parts of a plain URL; others are left out, since only the kit's parser decides them."""
    try:
        found = urllib.parse.urlsplit(url)
    except ValueError:
        raise Skipped('a URL')
    if found.scheme not in ('https', 'http') or not found.netloc or '%' in url or '\\' in url or '#' in url or not url.isascii():
        raise Skipped('a URL')
    default = {'https': 443, 'http': 80}[found.scheme]
    rest = found.netloc.rsplit('@', 1)[-1]
    try:
        port = found.port
    except ValueError:
        raise Skipped('a port')
    host = rest.split(':')[0] if not rest.startswith('[') else rest
    path = found.path or '/'
    if any(part in ('.', '..') for part in path.split('/')) or any(c in ' "<>`{}^|' for c in path) or any(c in ' "<>\'' for c in found.query):
        raise Skipped('a path')
    query = f'(Some {text(found.query.encode())})' if '?' in url else 'None'
    shown = 'None' if port is None or port == default else f'(Some {port})'
    return (f'(Ok (record {{ scheme = {text(found.scheme.encode())}; username = []; password = []; host = Some {url_host(host)}; port = {shown}; '
            f'path = {text(path.encode())}; query = {query}; fragment = None }}))')


CALLS = {'incoming': 'Incoming', 'forbidden': 'Forbidden', 'not_found': 'NotFound', 'too_many_requests': 'TooManyRequests', 'handshake': 'Handshake',
         'closed': 'Closed'}
# a line may name a session; else it asks for the one that was established first
ON_SESSION = {'accept_uni': 'AcceptUni', 'accept_bi': 'AcceptBi', 'receive_datagram': 'ReceiveDatagram', 'open_uni': 'OpenUni', 'open_bi': 'OpenBi',
              'max_datagram_size': 'MaxDatagramSize', 'session_id': 'SessionId', 'end_session': 'EndSession'}
WITH_ID = {'poll_opening': 'PollOpening', 'finish': 'Finish', 'stopped': 'Stopped', 'priority': 'Priority'}
WITH_ID_NUMBER = {'reset_send': 'ResetSend', 'read': 'Read', 'read_exact': 'ReadExact', 'stop_recv': 'StopRecv'}
WITH_ID_BYTES = {'write': 'Write', 'write_all': 'WriteAll'}
EVENTS = {'peer_uni': 'PeerUni', 'peer_bi': 'PeerBi', 'end': 'End', 'reset': 'Reset', 'stop': 'Stop', 'acked': 'Acked', 'max_uni': 'MaxUni', 'max_bi': 'MaxBi', 'max_data': 'MaxData'}


def number(word):
    n = int(word)
    return f'(pos {n})' if n >= 0 else f'(negsuc {-n - 1})'


def session(words):
    return f'(Some {words[0]})' if words else 'None'


def call(kind, rest):
    if kind in CALLS:
        return f'calls.{CALLS[kind]}'
    if kind in ON_SESSION:
        return f'(calls.{ON_SESSION[kind]} {session(rest)})'
    if kind in WITH_ID:
        return f'(calls.{WITH_ID[kind]} {rest[0]})'
    if kind in WITH_ID_NUMBER:
        return f'(calls.{WITH_ID_NUMBER[kind]} {rest[0]} {rest[1]})'
    if kind in WITH_ID_BYTES:
        return f'(calls.{WITH_ID_BYTES[kind]} {rest[0]} {hexadecimal(rest[1])})'
    if kind == 'set_priority':
        return f'(calls.SetPriority {rest[0]} {number(rest[1])})'
    if kind == 'accept':
        return f'(calls.Accept {fields(rest)})'
    if kind == 'send_datagram':
        return f'(calls.SendDatagram {hexadecimal(rest[0])} {session(rest[1:])})'
    if kind in ('close', 'endpoint_close'):
        return f'(calls.{"Close" if kind == "close" else "EndpointClose"} {rest[0]} {hexadecimal(rest[1])})'
    if kind == 'connect':
        return f'(calls.Connect ({text(rest[0].encode())}, {fields(rest[3:])}) {lookup(rest[1])} {outcome(rest[2])})'
    raise Skipped(f'a call {kind}')


def turn(line):
    words = line.split(' ')
    kind, rest = words[0], words[1:]
    if kind == 'connected':
        return f'turns.Connected {rest[0]} {rest[1]} {rest[2]} {fact(rest[3])}'
    if kind == 'bytes':
        return f'turns.Bytes {rest[0]} {hexadecimal(rest[1])}'
    if kind == 'datagram':
        return f'turns.Datagram {hexadecimal(rest[0])}'
    if kind == 'datagram_limit':
        return f'turns.DatagramLimit {fact(rest[0])}'
    if kind == 'loss':
        return f'turns.Loss {loss(rest)}'
    if kind in EVENTS:
        return ' '.join([f'turns.{EVENTS[kind]}'] + rest)
    return f'turns.Call {call(kind, rest)}'


def connection_error(words):
    kind, rest = words[0], words[1:]
    if kind in ('connection_closed', 'application_closed'):
        return f'(errors.{"Connection" if kind == "connection_closed" else "Application"}Closed {close(rest)})'
    if kind == 'local_h3':
        return f'(errors.LocalH3Error h3.{CODES[int(rest[0])]})'
    if kind == 'quic_proto':
        code = 'None' if rest[0] == 'none' else f'Some {rest[0]}'
        return f'(errors.QuicProto (record {{ code = {code}; reason = {hexadecimal(rest[1])} }}))'
    return ERRORS[kind]


def connecting_error(words):
    kind, rest = words[0], words[1:]
    if kind == 'invalid_url':
        return f'(connects.InvalidUrl refusals.{rest[0].capitalize()})'
    if kind in ('dns_lookup', 'reserved_header', 'invalid_server_name'):
        name = {'dns_lookup': 'DnsLookup', 'reserved_header': 'ReservedHeader', 'invalid_server_name': 'InvalidServerName'}[kind]
        return f'(connects.{name} {hexadecimal(rest[0])})'
    if kind == 'connection':
        return f'(connects.ConnectionError {connection_error(rest)})'
    if kind == 'invalid_remote_address':
        return f'(connects.InvalidRemoteAddress {address(rest[0])})'
    return {'dns_not_found': 'connects.DnsNotFound', 'session_rejected': 'connects.SessionRejected', 'endpoint_stopping': 'connects.EndpointStopping', 'cids_exhausted': 'connects.CidsExhausted'}[kind]


def stream_error(alias, words):
    plain = {'not_connected': 'NotConnected', 'closed': 'Closed', 'quic_proto': 'QuicProto', 'refused': 'Refused', 'unsupported': 'UnsupportedByPeer', 'too_large': 'TooLarge', 'disabled': 'Disabled'}
    if words[0] in ('stopped', 'reset'):
        return f'({alias}.{words[0].capitalize()} {words[1]})'
    return f'{alias}.{plain[words[0]]}'


REPLIES = {'done': 'Done', 'pending': 'Pending', 'no_session': 'NoSession', 'no_stream': 'NoStream', 'rejected': 'Rejected', 'all_written': 'AllWritten',
           'finished': 'Finished', 'closed_stream': 'ClosedStream'}
WITH_NUMBER = {'session': 'Session', 'uni': 'Uni', 'bi': 'Bi', 'opening': 'Opening', 'send_ready': 'SendReady', 'bi_ready': 'BiReady', 'id': 'Id', 'written': 'Written', 'count': 'Count'}
FAILURES = {'opening_failed': ('OpeningFailed', 'openings'), 'write_failed': ('WriteFailed', 'writes'), 'stopped_by': ('StoppedBy', 'writes'),
            'read_failed': ('ReadFailed', 'reads'), 'datagram_failed': ('DatagramFailed', 'datagrams')}


def reply(line):
    words = line.split(' ')
    kind, rest = words[0], words[1:]
    if kind in REPLIES:
        return f'replies.{REPLIES[kind]}'
    if kind in WITH_NUMBER:
        return f'(replies.{WITH_NUMBER[kind]} {rest[0]})'
    if kind in FAILURES:
        name, alias = FAILURES[kind]
        return f'(replies.{name} {stream_error(alias, rest)})'
    if kind == 'request':
        return f'(replies.Request {rest[0]} {fields(rest[1:])})'
    if kind == 'read':
        return f'(replies.Read (Some {hexadecimal(rest[0])}))'
    if kind == 'end':
        return '(replies.Read None)'
    if kind in ('datagram', 'exact'):
        return f'(replies.{kind.capitalize()} {hexadecimal(rest[0])})'
    if kind == 'size':
        return '(replies.Size None)' if rest[0] == 'none' else f'(replies.Size (Some {rest[0]}))'
    if kind == 'priority':
        return f'(replies.Priority {number(rest[0])})'
    if kind in ('failed', 'closed'):
        return f'(replies.{kind.capitalize()} {connection_error(rest)})'
    if kind == 'connect_failed':
        return f'(replies.ConnectFailed {connecting_error(rest)})'
    if kind == 'exact_failed':
        if rest[0] == 'finished_early':
            return f'(replies.ExactFailed (exacts.FinishedEarly {rest[1]}) {hexadecimal(rest[2])})'
        return f'(replies.ExactFailed (exacts.Read {stream_error("reads", rest)}) [])'
    raise Skipped(f'a reply {kind}')


def action(line):
    words = line.split(' ')
    kind, rest = words[0], words[1:]
    if kind == 'dial':
        return f'actions.Dial {address(rest[0])} {hexadecimal(rest[1])}'
    if kind in ('opened', 'finish'):
        return f'actions.{kind.capitalize()} {rest[0]}'
    if kind in ('send', 'close'):
        return f'actions.{kind.capitalize()} {rest[0]} {hexadecimal(rest[1])}'
    if kind == 'datagram_out':
        return f'actions.DatagramOut {hexadecimal(rest[0])}'
    return f'actions.{kind.capitalize()}Out {rest[0]} {rest[1]}'


def answer(line):
    first, *out = line.split(' ; ')
    return f'answer {reply(first)} {listed(action(a) for a in out)}'


def recorded(case, turns):
    """The places of the answers that were recorded (None for all of them), and the lines of these and of the end."""
    if 'stdout' in case:
        return None, case['stdout'].splitlines()
    if 'lines' in case:
        last = [] if case['status'] == 0 else [f'turn {max(n for n, _ in case["lines"])} unlawful']
        shown = [(n, line) for n, line in case['lines'] if not line.startswith('turn ')]
        return [n for n, _ in shown], [line for _, line in shown] + last
    if 'tail' in case:
        lines = case['tail'].splitlines()
        shown = [line for line in lines if not line.startswith('turn ')]
        end = turns if shown == lines else int(lines[-1].split(' ')[1])
        return list(range(end - len(shown), end)), lines
    raise Skipped('nothing recorded')
