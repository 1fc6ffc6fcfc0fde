"""The alarms, by Prometheus's own checks: each is on once and off once."""
from __future__ import annotations

import pathlib
import re

import pytest
from support.world import DEPLOY, done, ran

ALARMS = DEPLOY / "alarms"
OTHER = {" < ": " > ", " > ": " < ", " == ": " != "}


def test_the_rules_and_the_configuration_are_read() -> None:
    done("promtool", "check", "rules", ALARMS / "ocs.yml")
    done("promtool", "check", "config", ALARMS / "prometheus.yml")


def test_each_alarm_is_on_and_off() -> None:
    done("promtool", "test", "rules", ALARMS / "test.yml")
    rules = re.findall(r"- alert: (\S+)", (ALARMS / "ocs.yml").read_text())
    assert len(rules) == len(set(rules)) >= 12
    text = (ALARMS / "test.yml").read_text()
    for name in rules:
        assert re.search(rf"alertname: {name}\n +exp_alerts:\n", text), f"{name} is never on"
        assert re.search(rf"alertname: {name}, exp_alerts: \[\]", text), f"{name} is never off"


@pytest.mark.slow
def test_an_alarm_that_is_turned_round_is_found(tmp_path: pathlib.Path) -> None:
    rules = (ALARMS / "ocs.yml").read_text()
    (tmp_path / "test.yml").write_text((ALARMS / "test.yml").read_text())
    compared = [rule for rule in re.findall(r"expr: (.*)", rules) if re.search(" (<|>|==) ", rule)]
    assert len(compared) >= 12
    for rule in compared:
        turned = re.sub(" (<|>|==) ", lambda sign: OTHER[str(sign[0])], rule, count=1)
        (tmp_path / "ocs.yml").write_text(rules.replace(rule, turned))
        told = ran("promtool", "test", "rules", tmp_path / "test.yml")
        assert told.returncode, f"{turned} passes the tests of alarms"


def test_each_alarm_is_on_the_page() -> None:
    page = (DEPLOY / "SEEN.md").read_text()
    for name in re.findall(r"- alert: (\S+)", (ALARMS / "ocs.yml").read_text()):
        assert f"`{name}`" in page
