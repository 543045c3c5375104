"""Computes the sentences of wt_promise at the pairs of a history, and on lists of turns.

Each sentence is named by the function of crates/wt_promise/src whose contract it is. Its words are the definitions of
wt_promise, as they stand, and of the crates below it; `for each` goes over what is there: the streams that exist, the sessions
that were established, the findings. So a sentence that is false here is false; one that isn't may be false elsewhere.
"""
from functools import cached_property
from itertools import product
import re

SENTENCES = []


def sentence(name):
    def add(holds):
        SENTENCES.append((name, holds))
        return holds
    return add


class Words:
    """The definitions, by `File.name`, of wt_meaning (`m`), wt_promise (`p`), wt_turn (`s`), wt_proto (`o`), wt_message (`b`)."""

    CRATES = {'m': 'wt_meaning', 'p': 'wt_promise', 's': 'wt_turn', 'o': 'wt_proto', 'b': 'wt_message'}

    def __init__(self, antt):
        self.antt, self.known = antt, {}
        for letter in self.CRATES:
            setattr(self, letter, lambda name, *words, letter=letter: self.call(letter, name, words))

    def call(self, letter, name, words):
        if (letter, name) not in self.known:
            file, _, word = name.partition('.')
            self.known[letter, name] = self.antt.lookup(f'Rattle.{self.CRATES[letter]}.specs.{file}', word)
        found = self.known[letter, name]
        return self.antt.apply(found, list(words)) if words else found

    def list(self, value):
        return self.antt.to_list(value)


class At:
    """A pair after a history: the turn, its answer, and the history with both; or a turn that isn't lawful there."""

    def __init__(self, w, side, h, turn, answer, is_refused=False):
        self.w, self.side, self.h, self.turn, self.answer, self.is_refused = w, side, h, turn, answer, is_refused
        self.later = w.m('Meaning.with_pair', h, turn, answer)
        self.reply, self.actions = answer.f['reply'], w.list(answer.f['actions'])
        self.call = turn.a[0] if turn.n == 'Call' else None
        self.was_open, self.is_open = w.m('History.is_open', h), w.m('History.is_open', self.later)

    found = cached_property(lambda self: self.w.m('Moments.findings', self.side, self.h))
    now = cached_property(lambda self: self.w.m('Moments.findings', self.side, self.later))
    events = cached_property(lambda self: self.w.m('History.events', self.later))
    owed = cached_property(lambda self: self.w.list(self.w.p('Owed.owed_by_turn', self.side, self.h, self.turn, self.reply)))
    leaves_open = cached_property(lambda self: self.w.p('Promise.leaves_open', self.side, self.h, self.turn, self.answer))
    own_uni = cached_property(lambda self: self.w.s('Streams.local_uni', self.side))

    @cached_property
    def streams(self):
        return [kind + 4 * n for kind in range(4) for n in range(self.w.m('History.stream_count', self.side, self.later, kind))]

    @cached_property
    def sessions(self):
        said = (self.w.m('Windows.establishes', p) for p in self.w.list(self.later))
        return sorted({x.a[0] for x in said if x.n == 'Some'} | {k for k in self.streams if k % 4 == 0})

    def peers(self):
        return [k for k in self.streams if self.w.p('Found.peer_opened', self.side, self.later, k)]

    def end_of(self, k, events=None):
        return self.w.s('Reports.end_of', events or self.events, k)

    def credit(self, k):
        return self.w.s('Reports.credit', self.events, k)

    def out(self, k):
        return self.w.list(self.w.m('History.out', self.later, k))

    def is_quiet(self):
        return self.turn.n == 'Bytes' and not self.actions and self.found == self.now


# ---- a reply, the actions

@sentence('replies_have_their_causes')
def caused(at):
    return at.reply == at.w.p('Causes.reply_to', at.side, at.h, at.turn)


@sentence('calls_wait_while_the_connection_is_open')
def waits(at):
    return at.reply.n != 'Pending' or at.was_open


@sentence('what_is_owed_goes_out')
def owed(at):
    w = at.w
    moment = w.list(w.p('Owed.owed_by_moment', at.side, at.h, at.turn, at.answer))
    return w.list(w.s('Joined.join_all', None, w.antt.from_list(at.owed + moment))) == at.actions


@sentence('nothing_goes_out_after_the_end')
def after_end(at):
    return at.was_open or not at.actions


@sentence('connections_stay_open_exactly')
def stays_open(at):
    closes = any(a.n == 'Close' for a in at.owed)
    return at.is_open == (at.was_open and not at.w.m('History.loses', at.turn) and not closes and at.w.m('Findings.fault_of', at.now).n == 'None')


# ---- what is found

def control_of(at, name='control_in'):
    return at.w.m('Findings.first_of', at.w.m(f'Findings.{name}'), at.now)


def came(at):
    """The SETTINGS of the peer's control stream are there."""
    return at.w.m('Moments.control_walk', at.later, control_of(at)).f['settings'].n == 'Some'


@sentence('a_fault_is_the_first_of_its_moment')
def first_fault(at):
    w = at.w
    if not at.was_open:
        return True
    early = w.p('Found.early_fault', at.side, at.later, at.now).n == 'None'
    settings = w.m('Findings.settings_came', at.found) or early and came(at)
    return w.m('Findings.fault_of', at.now) == w.p('Found.first_fault', at.side, at.later, at.now) and w.m('Findings.settings_came', at.now) == settings


def found_for(at, before, f):
    """What a finding rests on, beside those before it."""
    w, h = at.w, at.later
    fits = lambda session, count: not w.m('Windows.is_gone', h, before, session) and w.m(f'Windows.{count}', h, before, session) < 16
    if f.n == 'Classified' and f.a[1].n == 'WebTransport':
        return f.a[2] == fits(f.a[1].a[0], 'streams_in_window')
    if f.n == 'Classified' and f.a[1].n == 'Request':
        return f.a[2] == (w.m('Windows.held_requests', h, before) < 4)
    if f.n == 'DatagramRead':
        return f.a[3] == fits(f.a[1], 'datagrams_in_window')
    if f.n == 'SessionClosed':
        s, code, reason, by_capsule = f.a
        walk = w.p('Found.session_walk', h, before, s)
        running = w.o('SessionWalk.session_walk_of', w.m('Windows.session_part', h, before, s), w.antt.D('Running'))
        return w.m('Windows.lives', h, before, s) and walk == w.antt.D('Closed', (code, reason)) and by_capsule == w.o('SessionWalk.is_over', running)
    return True


def is_subsequence(some, all_of_them):
    rest = iter(all_of_them)
    return all(any(x == y for y in rest) for x in some)


@sentence('what_is_found_stays_and_is_kept_by_counts')
def found_rightly(at):
    w, n = at.w, len(at.w.list(at.found))
    now = w.list(at.now)
    if now[:n] != w.list(at.found) or not all(found_for(at, w.antt.from_list(now[:i]), now[i]) for i in range(n, len(now))):
        return False
    kinds = [w.s('Streams.peer_uni', at.side), w.s('Streams.peer_bi', at.side)]
    order = [kind + 4 * i for kind in kinds for i in range(w.s('Streams.peer_count', at.side, at.events, kind))]
    return is_subsequence([f.a[0] for f in now[n:] if f.n == 'Classified'], order)


@sentence('streams_are_classified_by_their_bytes')
def classified(at):
    w = at.w
    for k in {f.a[0] for f in w.list(at.now) if f.n == 'Classified'}:
        v = w.m('Findings.verdict_of', at.now, k)
        if v.n == 'Some' and not (w.p('Found.peer_opened', at.side, at.later, k) and w.m('Moments.verdict', at.later, k) == v.a[0] and w.o('Uni.is_final', v.a[0])):
            return False
    return True


@sentence('datagrams_are_read_as_they_came')
def as_came(at):
    w = at.w
    read = w.list(w.p('Found.datagrams_read', at.side, at.later))
    there = w.list(w.s('Reports.datagrams_of', at.events))[:len(read)]
    return [w.antt.some(d) for d in read] == [w.p('Found.said_by', w.b('Datagram.datagram_of', piece)) for piece in there]


@sentence('all_is_found_while_the_connection_is_open')
def all_found(at):
    w = at.w
    if not at.is_open:
        return True
    ready = w.p('Found.can_set_up', at.side, at.later)
    for k in at.peers():
        read = w.m('Findings.is_dequeued', at.now, k)
        if read != (ready and w.m('Moments.unclassified_before', at.now, k) < 4):
            return False
        if w.m('Findings.is_classified', at.now, k) != (read and w.o('Uni.is_final', w.m('Moments.verdict', at.later, k))):
            return False
    datagrams = len(w.list(w.s('Reports.datagrams_of', at.events))) if ready else 0
    running = all(w.p('Found.session_walk', at.later, at.now, s).n == 'Running' for s in at.sessions if w.m('Windows.lives', at.later, at.now, s))
    control = control_of(at)
    return (len(w.list(w.p('Found.datagrams_read', at.side, at.later))) == datagrams and running and w.m('Findings.settings_came', at.now) == came(at)
            and (control.n == 'None' or control == w.p('Found.least_control', at.side, at.later)))


# ---- sessions

@sentence('sessions_are_established_rightly')
def established(at):
    w, h = at.w, at.h
    if at.reply.n != 'Session':
        return True
    s = at.reply.a[0]
    head = w.list(w.p('Owed.head_of', w.p('Owed.begun_last', at.later)))
    return (w.m('Findings.settings_came', at.found) and w.p('Promise.is_asked_for', at.side, at.later, s) and at.out(s) == head and at.was_open
            and not w.m('Windows.is_established', h, s))


@sentence('requests_and_sessions_rest_on_bytes')
def rests_on_bytes(at):
    w, h = at.w, at.h
    asks = lambda k: w.p('Found.peer_opened', at.side, h, k) and w.m('Moments.verdict', h, k).n == 'Request'
    if at.reply.n == 'Session':
        settings = w.m('Moments.control_walk', h, w.p('Found.least_control', at.side, h)).f['settings'].n == 'Some'
        return settings and (at.side.n == 'Client' or asks(at.reply.a[0]))
    if at.reply.n == 'Request':
        k, headers = at.reply.a
        return at.call and at.call.n == 'Incoming' and asks(k) and not w.m('Handshakes.was_given', h, k) and w.m('Moments.verdict', h, k).a[0] == headers
    return True


@sentence('few_sessions_live')
def few(at):
    return len(at.w.list(at.w.p('Owed.living', at.side, at.later))) <= 4


@sentence('connects_fail_where_no_session_is')
def alone(at):
    fails = at.call and at.call.n == 'Handshake' and at.reply.n == 'ConnectFailed'
    return not fails or not any(at.w.m('Windows.is_established', at.h, s) for s in at.sessions)


@sentence('results_stay')
def result(at):
    w = at.w
    over = (s for s in at.sessions if w.m('Windows.is_established', at.h, s) and w.p('Causes.is_over', at.side, at.h, s))
    return all(w.p('Causes.session_answer', at.side, at.later, s) == w.p('Causes.session_answer', at.side, at.h, s) for s in over)


@sentence('streams_of_a_gone_session_are_told')
def told(at):
    w, h = at.w, at.h
    by_call = w.m('Windows.gone_in', h, at.turn, at.reply)
    for s in at.sessions if at.was_open else []:
        if not (at.leaves_open or by_call == w.antt.some(s)) or w.m('Windows.is_gone', h, at.found, s) or not w.m('Windows.is_gone', at.later, at.now, s):
            continue
        for k in at.streams:
            if not w.m('Sends.is_of_session', h, w.p('Promise.until_gone', s, at.now), s, k):
                continue
            receives = w.m('History.can_receive', at.side, h, k) and at.end_of(k).n == 'Running' and not w.m('History.is_given_up', at.later, k)
            sends = w.m('History.can_send', at.side, h, k) and not w.m('History.was_finished', h, k) and not w.m('History.is_reset', h, k)
            sends = sends and not any(a.n in ('Finish', 'ResetOut') and a.a[0] == k for a in at.owed)
            if any(ends and w.antt.D(kind, (k, 0x170d7b68)) not in at.actions for kind, ends in (('StopOut', receives), ('ResetOut', sends))):
                return False
    return True


# ---- what is received

@sentence('accepted_streams_are_the_peers')
def accepted(at):
    w, h = at.w, at.h
    if at.reply.n not in ('Uni', 'Bi'):
        return True
    k = at.reply.a[0]
    if not at.call or at.call.n != 'Accept' + at.reply.n:
        return False
    kind, s, v = w.s('Streams.peer_' + at.reply.n.lower(), at.side), w.m('Windows.named', h, at.call.a[0]), w.m('Moments.verdict', h, k)
    return (s.n == 'Some' and k % 4 == kind and w.p('Found.peer_opened', at.side, h, k) and not w.m('History.is_handed_out', h, k)
            and v.n == 'WebTransport' and v.a[0] == s.a[0])


@sentence('what_is_received_is_in_order')
def in_order(at):
    w = at.w
    for k in at.streams:
        read = w.list(w.p('Causes.pieces', at.later, k))
        if w.list(w.p('Causes.body', at.side, at.later, k))[:len(read)] != read:
            return False
    admitted = [d.a[0] for d in (w.m('Windows.admitted_datagram', f) for f in w.list(at.now)) if d.n == 'Some']
    return all(w.list(w.p('Promise.payloads', at.later, s)) == [d.f['1'] for d in admitted if d.f['0'] == s][:w.m('Windows.received_count', at.later, s)] for s in at.sessions)


@sentence('payloads_came_in_order')
def payloads(at):
    return all(is_subsequence(at.w.list(at.w.p('Promise.payloads', at.later, s)), at.w.list(at.w.p('Sides.arrived', at.later, s))) for s in at.sessions)


@sentence('resets_are_read_rightly')
def resets(at):
    w, r = at.w, at.reply
    if r.n not in ('ReadFailed', 'ExactFailed') or not at.call or at.call.n not in ('Read', 'ReadExact'):
        return True
    error = r.a[0] if r.n == 'ReadFailed' else r.a[0].a[0] if r.a[0].n == 'Read' else None
    if getattr(error, 'n', None) != 'Reset':
        return True
    end = at.end_of(at.call.a[0], w.m('History.events', at.h))
    return end == error and (at.call.n == 'ReadExact' or not w.list(w.m('Halves.unread', at.side, at.h, at.call.a[0])))


@sentence('calls_find_nothing')
def finds_nothing(at):
    return not at.call or at.reply.n == 'Session' or at.found == at.now


# ---- what is sent

@sentence('settings_go_out')
def settings(at):
    w, k = at.w, at.own_uni
    if not at.leaves_open or w.s('Reports.unis_allowed', at.events) < 1:
        return True
    opened = w.s('Streams.local_count', w.m('History.actions_out', at.later), k)
    return opened > 0 and at.out(k) == w.list(w.p('Owed.control_bytes'))[:at.credit(k)]


@sentence('heads_go_out_as_far_as_credit')
def heads(at):
    w = at.w
    if not (w.m('Lawful.polls', at.turn) and at.reply.n == 'Pending' and w.p('Promise.head_may_go', at.side, at.h)):
        return True
    k = w.p('Owed.handshake_stream', at.h)
    return at.out(k) == w.list(w.p('Owed.head_of', w.p('Owed.begun_last', at.later)))[:at.credit(k)]


@sentence('headers_go_out_as_far_as_credit')
def headers(at):
    w = at.w
    if not (at.call and at.call.n == 'PollOpening'):
        return True
    k = at.call.a[0]
    if not (at.reply.n == 'Pending' or w.m('History.hands_out', k, at.reply)):
        return True
    return at.out(k) == w.list(w.p('Promise.head_on', at.side, at.later, k))[:at.credit(k)]


@sentence('sends_are_in_order')
def sends(at):
    w = at.w
    for k in at.streams:
        out, head = at.out(k), w.list(w.p('Promise.head_on', at.side, at.later, k))
        whole = head + w.list(w.p('Promise.accepted', at.later, k))
        if whole[:len(out)] != out or len(head) <= len(out) and out != whole:
            return False
    return True


def silent(at, ended, ends, acts):
    """After the stream ended nothing of these actions goes out, nor behind its end in this answer."""
    for k in at.streams:
        over = ended(k)
        for a in at.actions:
            if over and a.n in acts and a.a[0] == k:
                return False
            over = over or a.n == ends and a.a[0] == k
    return True


@sentence('nothing_goes_out_after_a_reset')
def after_reset(at):
    were = {a.a[0] for a in at.w.list(at.w.m('History.actions_out', at.h)) if a.n == 'ResetOut'}
    return silent(at, lambda k: k in were, 'ResetOut', ('Send', 'Finish', 'ResetOut'))


@sentence('nothing_is_sent_after_a_finish')
def after_finish(at):
    return silent(at, lambda k: at.w.m('History.was_finished', at.h, k), 'Finish', ('Send', 'Finish'))


@sentence('streams_are_opened_in_order')
def opened(at):
    w = at.w
    before = w.m('History.actions_out', at.h)
    own = [w.s('Streams.local_uni', at.side), w.s('Streams.local_bi', at.side)]
    for kind in range(4):
        ids = [a.a[0] for a in at.actions if a.n == 'Opened' and a.a[0] % 4 == kind]
        first = w.s('Streams.local_count', before, kind)
        if ids != [kind + 4 * (first + i) for i in range(len(ids))] or ids and kind not in own:
            return False
    there = set()
    for a in at.actions:
        if a.n == 'Opened':
            there.add(a.a[0])
        elif a.n in ('Send', 'Finish', 'ResetOut', 'StopOut') and a.a[0] % 4 in own and a.a[0] not in there and not w.m('History.exists', at.side, at.h, a.a[0]):
            return False
    return True


@sentence('calls_on_a_stream_wait_on')
def waits_on(at):
    w, d = at.w, at.w.antt.D
    for k in at.streams if at.is_open else []:
        if not w.m('History.is_handed_out', at.h, k) or w.p('Sides.is_about', k, at.turn) or any(a.n in ('Send', 'Finish', 'ResetOut') and a.a[0] == k for a in at.actions):
            continue
        for words in (('Write', k, w.antt.from_list([0])), ('Finish', k), ('Stopped', k), ('Read', k, 1), ('ReadExact', k, 1)):
            call = d('Call', (d(words[0], words[1:]),))
            if w.m('Lawful.is_lawful', at.side, at.h, call) and w.m('Meaning.next', at.side, at.h, call).f['reply'].n == 'Pending':
                if w.m('Meaning.next', at.side, at.later, call).f['reply'].n != 'Pending':
                    return False
    return True


@sentence('calls_wait_on_under_the_transport')
def waits_under_transport(at):
    w, d = at.w, at.w.antt.D
    if at.call or not (at.was_open and at.is_open) or at.actions or at.found != at.now or at.is_quiet():
        return True
    none, brings, about = d('None'), at.turn.n in ('Connected', 'MaxUni', 'MaxBi'), lambda k: w.p('Sides.is_about', k, at.turn)
    calls = [d('Incoming'), d('AcceptUni', (none,)), d('AcceptBi', (none,)), d('ReceiveDatagram', (none,)), d('Closed')]
    if not brings:
        calls += [d('OpenUni', (none,)), d('OpenBi', (none,))]
    if not about(w.p('Owed.handshake_stream', at.h)) and not (brings and at.side.n == 'Client'):
        calls.append(d('Handshake'))
    calls += [d('PollOpening', (k,)) for k in at.streams if w.m('Calls.being_opened', at.h, k).n == 'Some' and not about(k)]
    replies = lambda h: [w.m('Meaning.next', at.side, h, d('Call', (call,))).f['reply'] for call in calls]
    return replies(at.h) == replies(at.later)


@sentence('bytes_that_complete_nothing_are_quiet')
def quiet_byte(at):
    w, k = at.w, at.turn.a[0] if at.turn.n == 'Bytes' else 0
    if at.turn.n != 'Bytes' or at.found == at.now and not at.actions:
        return True
    control = w.m('Findings.first_of', w.m('Findings.control_in'), at.found)
    ripe = w.m('Findings.is_dequeued', at.found, k) and not w.m('Findings.is_classified', at.found, k) and w.o('Uni.is_final', w.m('Moments.verdict', at.later, k))
    runs = not w.m('Windows.lives', at.h, at.found, k) or w.p('Found.session_walk', at.later, at.found, k).n == 'Running'
    return ripe or not runs or w.m('Moments.control_walk', at.later, control) != w.m('Moments.control_walk', at.h, control)


# ---- lists

def false_of_list(w, side, turns):
    """The first sentence on lists that is false of these turns, or ''."""
    run = w.m('Meaning.run', side, turns)
    h, lawful = None, []
    for turn in w.list(turns):
        if not w.m('Lawful.is_lawful', side, h, turn):
            break
        answer = w.m('Meaning.answer_to', side, h, turn)
        if turn.n != 'Call' and (answer.f['reply'].n != 'Done' or not w.m('History.is_open', h) and w.list(answer.f['actions'])):
            return 'turns_of_the_transport_are_done'
        if turn.n == 'Bytes' and not cuts(w, side, h, turn, answer):
            return 'pieces_may_be_cut'
        lawful.append((turn, answer, h))
        h = w.m('Meaning.history_after', side, h, turn)
    first = w.antt.from_list([turn for turn, _, _ in lawful])
    meaning = w.list(w.m('Meaning.meaning', side, first))
    is_all = len(lawful) == len(w.list(turns))
    if is_all and not (w.list(run.f['answers']) == meaning and run.f['is_all']):
        return 'lawful_lists_are_answered_whole'
    if w.list(run.f['answers']) != meaning or run.f['is_all'] != is_all:
        return 'the_longest_lawful_prefix_is_answered'
    half = len(lawful) // 2
    if lawful:
        parts = w.list(w.m('Meaning.meaning', side, w.antt.from_list([t for t, _, _ in lawful[:half]])))
        rest = w.list(w.m('Meaning.meaning_from', side, lawful[half][2], w.antt.from_list([t for t, _, _ in lawful[half:]])))
        if meaning != parts + rest:
            return 'lawful_lists_lead_to_histories'
    return ''


def cuts(w, side, h, turn, answer):
    k, piece = turn.a[0], w.list(turn.a[1])
    first, second = (w.antt.D('Bytes', (k, w.antt.from_list(some))) for some in (piece[:len(piece) // 2], piece[len(piece) // 2:]))
    between = w.m('Meaning.history_after', side, h, first)
    joined = w.s('Joined.join_all', w.m('Meaning.answer_to', side, h, first).f['actions'], w.m('Meaning.answer_to', side, between, second).f['actions'])
    return (w.m('Lawful.is_lawful', side, h, first) and w.m('Lawful.is_lawful', side, between, second)
            and w.m('Meaning.history_after', side, h, turn) == w.m('Meaning.history_after', side, between, second) and answer.f['actions'] == joined)


# ---- equations: the clauses `left ≡ right` of these files of wt_promise/src, as they stand there

EQUATIONS = ('words', 'lawful', 'session_streams')

# those that ask of a turn whether it may come
LAWFUL = ('turns_of_the_transport_come_as_quic_lets_them', 'calls_come_in_their_order')


def parts_of(text, sign):
    """The text cut at this sign where no bracket is open."""
    found, depth, begin, i = [], 0, 0, 0
    while i < len(text):
        depth += {'(': 1, '[': 1, '{': 1, ')': -1, ']': -1, '}': -1}.get(text[i], 0)
        if not depth and text.startswith(f' {sign} ', i):
            found.append(text[begin:i])
            i = begin = i + len(sign) + 2
        else:
            i += 1
    return found + [text[begin:]]


class Equation:
    """A clause of a function: its binders, its premises, and its two sides."""

    def __init__(self, antt, module, function, text):
        self.function, self.binders = function, []
        while m := re.match(r'\s*\(([\w ]+) : ((?:[^()]|\([^()]*\))*)\)', text):
            self.binders += [(name, m[2]) for name in m[1].split()]
            text = text[m.end():]
        *premises, claim = parts_of(re.sub(r'^\s*→ ', '', text), '→')
        self.side = next((m[1] for p in premises if (m := re.match(r'\s*IsHistory (Client|Server) ', p))), None)
        self.premises = [self.sides(antt, module, p) for p in premises if ' ≡ ' in p]
        self.left = claim
        self.claim = self.sides(antt, module, claim)
        self.turn = re.search(r'\(turns\.(\w+) ?([\w ]*)', claim)

    def sides(self, antt, module, text):
        names = frozenset(name for name, _ in self.binders)
        return [antt.comp(antt.Parser(antt.tokens(side), module).expr(), module, names) for side in parts_of(text, '≡')]

    def holds(self, at):
        if self.side and at.side.n != self.side:
            return True
        for env in self.environments(at):
            if all(left(env) == right(env) for left, right in self.premises):
                left, right = self.claim
                if not left(env) == right(env):
                    return False
        return True

    def environments(self, at):
        """What there is for the binders: of a turn, or call, the one at hand after the history before it."""
        names, h, given = dict(self.binders), at.h if at.is_refused else at.later, {'side': at.side}
        if self.turn and self.turn[1] != 'Call' and at.turn.n != self.turn[1] and set(self.turn[2].split()) & set(names):
            return
        if {'turn', 'c'} & set(names) or self.turn and self.turn[1] != 'Call' and self.turn[1] == at.turn.n:
            h = at.h
            given.update(zip(self.turn[2].split(), at.turn.a) if self.turn else ())
            if 'b' in names:
                given['b'] = at.turn.a[1].h if at.turn.n == 'Bytes' and at.turn.a[1] else None
        if 'p' in names:
            if h is None:
                return
            given['p'], h = h.h, h.t
        given['h'] = h
        if {'capsules', 'b'} <= set(names):
            yield from self.walks(at, given, names)
            return
        left = [name for name in names if name not in given]
        for values in product(*(self.values(at, name, names[name]) for name in left)):
            env = dict(given, **dict(zip(left, values)))
            if env.get('b', 0) is not None:
                yield env

    def walks(self, at, given, names):
        """A walk over capsules that took some last bytes of a session's stream but the newest, and that; and one that took none, and some last bytes."""
        w, start = at.w, at.w.o('SessionWalk.session_start').f['capsules']
        over = w.o('WalkProgress.progress_after', w.o('SessionWalk.capsule_decides'))
        for some in (w.list(w.m('History.contents', at.later, s)) for s in at.sessions):
            for i in range(len(some)):
                for left in (0, 1) if 'left' in names else (0,):
                    yield dict(given, left=left, capsules=w.antt.apply(over, [start, w.antt.from_list(some[i:-1])]), b=some[-1], bytes=None)
                    yield dict(given, left=left, capsules=start, b=some[i], bytes=w.antt.from_list(some[i + 1:]))

    def values(self, at, name, kind):
        w, d = at.w, at.w.antt.D
        if name in ('k', 'id'):
            return [*at.streams[-6:], 0, 2, 3]
        if name in ('s', 'other'):
            return {*at.sessions[-4:], 0, 4}
        if kind == 'ℕ':
            return {'kind': range(4), 'left': (0, 1, 5), 'code': (0, 7), 'b': (0,)}.get(name, (0, 4))
        if name == 'bytes':
            streams = [w.list(w.m('History.contents', at.later, s)) for s in at.sessions]
            return [w.antt.from_list(some[i:]) for some in streams for i in range(len(some))]
        fixed = {
            'Turn': [at.turn], 'Reply': [at.reply], 'Call': [at.call] if at.call else [], 'Action': at.actions, 'Answer': [at.answer], 'Option ℕ': [d('None'), w.antt.some(0), w.antt.some(4)],
            'List Finding': [at.now], 'Finding': w.list(at.now)[-8:], 'StreamEnd': [d('Running'), d('Fin'), d('Reset', (0,))], 'Bool': [True, False],
            'List Turn': [None], 'ResponseWalk': [w.o('ResponseWalk.response_walk_of', w.m('History.contents', at.later, 0), at.end_of(0))],
            'SessionWalk': [d('Running'), d('Closed', (0, None)), d('Fault', (d('Message'),))],
        }
        if kind in fixed:
            return fixed[kind]
        if name == 'stream':
            return [d('None'), control_of(at)]
        start = w.o('SessionWalk.session_start')
        if kind == 'SessionProgress':
            return [start, w.antt.Rec({'data_left': 1, 'capsules': start.f['capsules']})]
        raise Exception(f'no value for {name} : {kind}')


def equations_of(antt):
    """All equations of these files, read once."""
    if antt.EQUATIONS is None:
        antt.EQUATIONS = []
        for file in EQUATIONS:
            text = (antt.REPO / 'crates/wt_promise/src' / f'{file}.rt').read_text()
            module = antt.Uses(file, re.findall(r'^ghost use (.*);$', text, re.M))
            for function in re.finditer(r'^pub fn (\w+)\(\)\n((?: +.*\n)+)', text, re.M):
                for clause in re.split(r'\n    ensures ', '\n' + function[2].rstrip())[1:]:
                    antt.EQUATIONS.append(Equation(antt, module, function[1], clause[clause.index('{') + 1:clause.rindex('}')]))
    return antt.EQUATIONS


def false_equation(at, functions=None):
    """The first function of which a clause is false at the pair, or ''."""
    for equation in equations_of(at.w.antt):
        if (functions is None or equation.function in functions) and not equation.holds(at):
            return equation.function
    return ''


# ---- where

def pairs(w, side, turns):
    """Each turn of the list as far as it is lawful, its bytes one by one, with the number of the turn; then the one that isn't, without an answer."""
    h = None
    for n, turn in enumerate(w.list(turns)):
        if not w.m('Lawful.is_lawful', side, h, turn):
            yield n, h, turn, None
            return
        for one in [w.antt.D('Bytes', (turn.a[0], w.antt.Cons(b, None))) for b in w.list(turn.a[1])] if turn.n == 'Bytes' else [turn]:
            answer = w.m('Meaning.next', side, h, one)
            yield n, h, one, answer
            h = w.m('Meaning.with_pair', h, one, answer)


def false_at(at):
    """The first sentence that is false at a pair, or ''."""
    for name, holds in SENTENCES:
        if not holds(at):
            return name
    return false_equation(at)


def refuses(antt, side, turns, at_turn=None):
    """(sentence, turn) that is false of this list, or ('', None): at the given turn first, then at every pair but quiet bytes in the middle of a piece, then of the list."""
    w = Words(antt)
    every = list(pairs(w, side, turns))
    stop = every.pop() if every and every[-1][3] is None else None
    order = [p for p in every if p[0] == at_turn] + [p for p in every if p[0] != at_turn]
    last, first = {p[0]: p for p in every}, {p[0]: p for p in reversed(every)}
    for p in order:
        at = At(w, side, *p[1:])
        if at.is_quiet() and last[p[0]] is not p and first[p[0]] is not p:
            continue
        if said := false_at(at):
            return said, p[0]
    if stop:
        n, h, turn, _ = stop
        at = At(w, side, h, turn, w.m('Meaning.next', side, h, turn), True)
        if said := false_equation(at, LAWFUL):
            return said, n
    return false_of_list(w, side, turns), None
