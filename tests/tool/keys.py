"""keys.py: the keys of `zikhrodan show --json` are ethtool's, with ethtool's values, or stand in the object "zikhrodan".

ethtool-6.14.json, beside this file, is what Debian's ethtool 6.14.2 prints of the module after the sample below, made by

  tests/clients/try -s SAMPLE ethtool -j -m operator >tests/tool/ethtool-6.14.json

with that version on the PATH. The sample has all six kinds of status flag, and each quantity outside some of its limits. ethtool
prints six digits of a number; no number of this sample has more.
"""
import json
from decimal import Decimal

from station import zikhrodan
from transcript import ROOT

SAMPLE = "2481184B80791800FA01F58A998CA00BB8157D04E203E723289C4009C403E8"

# ethtool has these only of a module whose page 00h offers them, which the factory image's does not: here as the sample has them
NOT_OFFERED = {"tx_fault": [True, False, False, False], "tx_adaptive_eq_fault": [False, False, False, True]}
# ethtool has the type of power there too, by a bit that document 01 doesn't use
TYPE = {"rx_power": "type"}
# ethtool has these twice, a value and then limits: here the limits are among ours
TWICE = {"module_temperature": "module_temperature_thresholds", "module_voltage": "module_voltage_thresholds"}
# facts of a module that document 01 has nothing to say of
NOT_OURS = {"identifier", "identifier_description", "extended_identifier", "power_set", "power_override", "connector",
            "connector_description", "transceiver_codes", "transceiver_type", "encoding", "encoding_description", "br_nominal",
            "rate_identifier", "length_(smf)", "length_(om3)", "length_(om2)", "length_(om1)", "length_(copper_or_active_cable)",
            "transmitter_technology", "transmitter_technology_description", "laser_wavelength", "laser_wavelength_tolerance",
            "revision_compliance", "alarm/warning_flags_implemented"}


def pairs(text):
    """The members of the one object in the array, in order; objects in it are pairs too, and numbers keep their digits."""
    (members,) = json.loads(text, object_pairs_hook=list, parse_float=Decimal, parse_int=Decimal)
    return members


def shown(folder, checks):
    """The JSON of the operator's port after the sample."""
    (folder / "row.hex").write_text(SAMPLE + "\n", encoding="ascii")
    for words in (("reset", "module.state"), ("sample", "module.state", "row.hex")):
        checks.same(f"zikhrodan {' '.join(words)}", (0, ""), zikhrodan(folder, *words)[::2])
    status, text, complaint = zikhrodan(folder, "show", "module.state", "--json", "--port", "operator")
    checks.same("zikhrodan show --json", (0, ""), (status, complaint))
    return pairs(text)


def run(folder, checks):
    theirs = pairs((ROOT / "tests" / "tool" / "ethtool-6.14.json").read_text(encoding="utf-8"))
    ours = shown(folder, checks)
    first, second = dict(reversed(theirs)), dict(theirs)  # of a key that is there twice
    keys = [key for key, _ in ours]
    checks.same("show --json: no key is there twice", sorted(set(keys)), sorted(keys))
    checks.same("show --json: ethtool's keys that are not there", NOT_OURS, set(first) - set(keys))
    checks.same("show --json: keys that ethtool does not print", {"zikhrodan", *NOT_OFFERED}, set(keys) - set(first))
    with checks.group("show --json: what stands under ethtool's keys is what ethtool has there") as group:
        for key, value in ours[:-1]:
            expected = first.get(key, NOT_OFFERED.get(key))
            if key in TYPE:
                expected = [pair for pair in expected if pair[0] != TYPE[key]]
            group.same(key, repr(expected), repr(value))  # as text, or 1 would equal true
        for key, own in TWICE.items():
            group.same(f"zikhrodan.{own}", repr(second[key]), repr(dict(dict(ours)["zikhrodan"]).get(own)))
    checks.same("show --json: ours are the last, under one key", "zikhrodan", keys[-1])
