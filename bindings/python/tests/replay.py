"""Reads the comparison's cases from standard input (second/compare-library --replay), puts them through the package, and holds
what it gives to what the C call gave."""

import struct
from ctypes import sizeof

from duggfrask import Flow, Plan, Refused, Site, share, tidy
from duggfrask._raw import Record
from duggfrask import _raw, _site

# A record as the cases have it, without the padding that C puts before the reach and after the rule.
LOADS, REACH, END = Record.loads.offset + Record.loads.size, Record.reach.offset, Record.rule.offset + Record.rule.size
BEFORE_REACH, AFTER_RULE = bytes(REACH - LOADS), bytes(sizeof(Record) - END)
SITE = LOADS + END - REACH
HEAD = struct.Struct("<I%ds4HQI8I" % SITE)
ANSWER = struct.Struct("<4Q%ds128s" % SITE)
FLOW = struct.Struct("<5H")
source = open(0, "rb", buffering=1 << 20)


def taken(n):
    part = source.read(n)
    if len(part) != n:
        raise SystemExit("the cases end inside one")
    return part


def record(part):
    return Record.from_buffer_copy(part[:LOADS] + BEFORE_REACH + part[LOADS:] + AFTER_RULE)


def packed(r):
    whole = bytes(r)
    return whole[:LOADS] + whole[REACH:END]


ZERO = bytes(SITE)
NUMBERS = bytes(128)


class Lent:
    """What is lent to be written, and what stands beside the answer."""

    def __init__(self, output, words, numbers):
        self.output, self.words, self.list = bytearray(output), bytearray(words), bytearray(numbers)
        self.site, self.numbers = ZERO, NUMBERS


def edited(lent, refused, make):
    lent.site = refused
    lent.site = packed(make()._record)
    return 0, 0, 0


def of_found(found, search):
    if search:
        return found.verdict, found.tries, 0
    return found.verdict, found.way, found.tries or found.cells


def into(lent, plan):
    """What a call that makes its own table leaves in a lent one."""
    lent.output[:len(plan.table)] = plan.table


def writes(lent, data):
    if len(data) > len(lent.output):
        return 13, (len(data), 0, 0)
    lent.output[:len(data)] = data
    return 0, (len(data), 0, 0)


def blocked_of(r):
    return [k for k in range(2048) if r.blocked[k // 64] >> k % 64 & 1]


def alone(call, r, numbers, data, lent):
    x, y, z, w = numbers
    if call in (24, 25):
        s = share(x, y, z) if call == 24 else share(x, y, z, w)
        return s.share, s.queue, s.delay
    if call == 28:
        return edited(lent, ZERO, lambda: Site.from_bytes(data))
    if call == 30:
        lent.site = packed(Record(rule=1))
        start, length, _ = _raw.read_part(data)
        to, room, hold = _raw.write_part(lent.output)
        given = _raw.lib.dugg_read_plan(start, length, to, room)
        del hold
        if given.answer.number == 4:
            raise Refused(30, 4, given.answer.value[:])
        plan = Plan.from_bytes(data)
        if bytes(plan.table) != bytes(lent.output[:len(plan.table)]):
            raise SystemExit("a plan file is read otherwise")
        lent.site = packed(Record(plan.cells, plan.slots, plan.channels, rule=1))
        return 0, 0, 0
    if call == 32:
        return edited(lent, ZERO, lambda: Site.from_sheet(data, r.slots, r.channels, r.rule, blocked_of(r)))
    if call == 34:
        return writes(lent, tidy(data))
    return None


def on_site(call, site, r, numbers, limit, cells, data, flows, lent):
    x, y = numbers[:2]
    none = (0, 0, 0)
    if call == 1:
        return none
    if call == 2:
        return int(site.clash(x, y)), 0, 0
    if call in (3, 4, 5):
        edit = {3: site.with_load, 4: site.with_reach, 5: site.without_reach}[call]
        return edited(lent, packed(r), lambda: edit(x, y))
    if call == 6:
        test = site.load_test()
        return test.cell, test.excess, 0
    if call == 7:
        return site.chain().cells
    if call == 8:
        return site.nested().cells
    if call == 9:
        least = site.least()
        return least.positions, int(not least.exact), 0
    if call == 10:
        heavy = site.heaviest()
        return heavy.load, heavy.cells, 0
    if call == 14:
        over = site.over_full(cells)
        return int(over.over), over.load, 0
    if call == 15:
        site.check(data)
        return none
    if call == 11:
        site.plan_into(lent.output)
        return none
    if call in (12, 13):
        if len(lent.output) < site.cells * site.positions:
            raise Refused(call, 4, none)
        found = site.search(limit) if call == 12 else site.find(limit)
        lent.output[:site.cells * site.positions] = found.plan.table if found.plan else bytes(site.cells * site.positions)
        return of_found(found, call == 12)
    if call == 20:
        before = bytes(lent.output)
        changes = site.mend(lent.output)
        if 4 * len(changes) > len(lent.list) // 2:
            lent.output[:] = before
            return 13, (len(changes), 0, 0)
        for i, change in enumerate(changes):
            struct.pack_into("<4H", lent.list, 8 * i, change.cell, change.position, change.was, change.now)
        return len(changes), 0, 0
    if call == 21:
        lent.site = packed(r)
        before = bytes(lent.output)
        try:
            changed = site.change_load(x, y, lent.output)
        except Refused as refused:
            # The C call leaves the new load in the record after a 5; a Python site is never changed.
            if refused.number == 5:
                lent.site = packed(site.with_load(x, y)._record)
            elif bytes(lent.output) != before:
                raise SystemExit("a refused change of a load writes")
            raise
        lent.site = packed(changed._record)
        return none
    if call == 22:
        lent.site = packed(r)
        renumbered = site.renumber()
        lent.site = packed(renumbered.site._record)
        lent.numbers = struct.pack("<64H", *renumbered.new_of_old, *renumbered.old_of_new)
        return none
    if call == 23:
        plan = site.carry(data)
        if len(lent.output) < len(plan.table):
            raise Refused(23, 4, none)
        into(lent, plan)
        return none
    if call in (26, 27):
        admitted = site.admit(flows) if call == 26 else site.admit_beside(flows)
        return sum(1 << (k - 1) for k in admitted), 0, 0
    if call == 29:
        return writes(lent, site.to_bytes())
    if call == 31:
        return writes(lent, site.write_plan(data))
    if call == 33:
        return writes(lent, site.to_sheet())
    return in_words(call, site, data, lent)


def in_words(call, site, data, lent):
    """The calls on words: those that are lent become the object's own."""
    none = (0, 0, 0)
    if len(lent.words) // 4 < site.positions:
        raise Refused(call, 4, none)
    words = _site.Words(len(lent.words) // 4)
    words.view.cast("B")[:] = lent.words
    if call == 17:
        site.check_words(words)
    elif call == 16:
        try:
            lent.words[:4 * site.positions] = site.plan_words().view.cast("B")
        except Refused as refused:
            if refused.number == 5:
                lent.words[:4 * site.positions] = bytes(4 * site.positions)
            raise
    elif call == 18:
        lent.words[:4 * site.positions] = site.to_words(data).view.cast("B")
    elif call == 19:
        plan = site.to_plan(words)
        if len(lent.output) < len(plan.table):
            raise Refused(call, 4, none)
        into(lent, plan)
    else:
        raise SystemExit("call %d is not known" % call)
    return none


def main():
    cases = 0
    while True:
        if not source.peek(1):
            break
        call, site_part, x, y, z, w, limit, cells, n_in, n_out, n_flows, n_words, n_list, *changed = HEAD.unpack(taken(HEAD.size))
        data, output = taken(n_in), taken(n_out)
        flows = [Flow(*FLOW.unpack(taken(FLOW.size))) for _ in range(n_flows)]
        before = (output, taken(4 * n_words), taken(2 * n_list))
        lent = Lent(*before)
        *answer, site_given, numbers_given = ANSWER.unpack(taken(ANSWER.size))
        after = [taken(len(part)) if new else part for part, new in zip(before, changed)]
        given = (tuple(answer), site_given, numbers_given, *after)
        r = record(site_part)
        try:
            values = alone(call, r, (x, y, z, w), data, lent)
            if values is None:
                try:
                    site = Site.from_record(r)
                except Refused:
                    # A record that is not in order is no Site: the C call refuses it with the same number, and gives it back.
                    lent.site = given[1]
                    raise
                values = on_site(call, site, r, (x, y, z, w), limit, cells, data, flows, lent)
            number, values = values if len(values) == 2 else (0, values)
        except Refused as refused:
            number, values = refused.number, refused.values
        seen = ((number, *values), lent.site, lent.numbers, bytes(lent.output), bytes(lent.words), bytes(lent.list))
        if seen != given:
            where = [i for i in range(6) if seen[i] != given[i]]
            raise SystemExit("DISAGREEMENT in call %d, part %s: %s, and C gives %s" % (call, where, seen[0], answer))
        cases += 1
    if not cases:
        raise SystemExit("there were no cases")
    print("python: %d cases, all as the C calls" % cases)


main()
