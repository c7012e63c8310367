"""Prints size and offsets of every record, a line each, as tools/layout.c does for the header's."""

import ctypes

from duggfrask import _raw

for name, record in [
    ("dugg_site", _raw.Record), ("dugg_blocked", _raw.Blocked), ("dugg_answer", _raw.Answer), ("dugg_edited", _raw.Edited),
    ("dugg_plan_read", _raw.PlanRead), ("dugg_renumbered", _raw.RenumberedRecord), ("dugg_flow", _raw.FlowRecord),
]:
    print(name, ctypes.sizeof(record))
    for field, _ in record._fields_:
        print("%s.%s" % (name, field), getattr(record, field).offset)
