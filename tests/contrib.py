"""What `contrib/` has for other programs, by these where they are installed: alerts by promtool, the unit by systemd-analyze."""
from __future__ import annotations

import json
import re
import shutil
import subprocess
from urllib.request import urlopen

from harness import PATIENCE, ROOT, Program, each, free_address, holds, match, same, test

ALERTS = ROOT / "contrib/alerts.yml"
UNIT = ROOT / "contrib/mltx.service"


def is_there(tool: str) -> bool:
    """Whether a tool is installed, which is told if it is not."""
    if shutil.which(tool):
        return True
    print(f"    no {tool} is installed: what it says of contrib/ is not looked at", flush=True)
    return False


def called(*words: str) -> tuple[int, str]:
    """The status of a tool, and what it says."""
    ran = subprocess.run(words, stdout=subprocess.PIPE, stderr=subprocess.STDOUT, text=True, timeout=PATIENCE)
    return ran.returncode, ran.stdout


def alerts() -> dict[str, dict[str, str]]:
    """The alerts by their names, each with its severity and its summary."""
    found = {}
    for part in ALERTS.read_text().split("      - alert: ")[1:]:
        severity, summary = re.findall(r"severity: (\w+)", part), re.findall(r'summary: "(.*)"', part)
        same((len(severity), len(summary)), (1, 1), f"one severity and one summary of {part}")
        found[part.split("\n")[0]] = {"severity": severity[0], "summary": summary[0]}
    return found


@test
def metrics_and_alerts_are_those_of_prometheus(mltx: Program) -> None:
    """It reads both; each alert has a severity and a summary that names the server, and says what to do."""
    for name, alert in alerts().items():
        holds(alert["severity"] in ("critical", "warning"), f"the severity of {name}")
        match(r"\{\{ \$labels\.instance \}\}.*: \w", alert["summary"])
    if is_there("promtool"):
        same(called("promtool", "check", "rules", str(ALERTS))[0], 0, "the status of the rules")
        admin = free_address()
        with mltx.serve("--endless", limit=None, admin=admin) as server:
            server.connect().ask("quit")
            told = urlopen("http://%s:%d/metrics" % admin).read()
        ran = subprocess.run(["promtool", "check", "metrics"], input=told, capture_output=True, timeout=PATIENCE)
        same((ran.returncode, ran.stdout + ran.stderr), (0, b""), "what it says of the metrics")


# Series of a server that is well, by the minute.
WELL = {
    "up": "1x30", "mltx_server": "77x30", "mltx_trace_failed": "0x30", "mltx_no_room_total": "0x30",
    "mltx_directory_depth": "12x30", "mltx_pages": "900x30", "mltx_most_pages": "65793x30",
    "mltx_refused_connections_total": "0x30", "mltx_session_threads": "64x30", "mltx_queued_connections": "0x30",
    "mltx_open_transactions": "3x30", "mltx_gave_up_total": "0+6x30", "mltx_commits_total": "0+600x30",
    **{f'mltx_queue_seconds_bucket{{le="{le}"}}': "0+600x30" for le in ("0.01", "2", "+Inf")},
    **{f'mltx_transaction_seconds_bucket{{le="{le}"}}': "0+600x30" for le in ("0.01", "2", "+Inf")},
}
# What is other with a server that is not, and the alerts that come of it in half an hour.
ILL: dict[str, tuple[dict[str, str], list[str]]] = {
    "of-nothing": ({}, []),
    "of-a-server-that-is-down": ({"up": "1x9 0x20"}, ["MltxDown"]),
    "of-a-restart": ({"mltx_server": "77x24 78x5"}, ["MltxRestarted"]),
    "of-a-trace-that-failed": ({"mltx_trace_failed": "0x28 1x1"}, ["MltxTraceFailed"]),
    "of-no-room": ({"mltx_no_room_total": "0x27 1x2"}, ["MltxNoRoom"]),
    "of-depth-16": ({"mltx_directory_depth": "16x30"}, ["MltxNearlyFull"]),
    "of-many-pages": ({"mltx_pages": "60000x30"}, ["MltxNearlyFull"]),
    "of-refused-clients": ({"mltx_refused_connections_total": "0x27 1x2"}, ["MltxRefused"]),
    "of-sessions-that-are-taken": ({"mltx_queued_connections": "5x30", "mltx_open_transactions": "64x30"}, ["MltxSessionsTaken"]),
    "of-clients-that-wait": ({'mltx_queue_seconds_bucket{le="0.01"}': "0x30"}, ["MltxSessionsTaken"]),
    "of-operations-that-give-up": ({"mltx_gave_up_total": "0+90x30"}, ["MltxManyGiveUp"]),
    "of-slow-transactions": ({'mltx_transaction_seconds_bucket{le="0.01"}': "0x30"}, ["MltxSlowTransactions"]),
}


@each({f"alerts-{name}": case for name, case in ILL.items()})
def alerts_come(mltx: Program, case: tuple[dict[str, str], list[str]]) -> None:
    """Promtool reckons them from the series; no other alert comes."""
    if not is_there("promtool"):
        return
    other, wanted = case
    series, rows = [], []
    for name, values in {**WELL, **other}.items():
        of_server = 'job="mltx",instance="here"'
        named = name.replace("{", f"{{{of_server},") if "{" in name else f"{name}{{{of_server}}}"
        series.append({"series": named, "values": values})
    for name, alert in alerts().items():
        summary = alert["summary"].replace("{{ $labels.instance }}", "here")
        labels = {"severity": alert["severity"], "job": "mltx", "instance": "here"}
        came = [{"exp_labels": labels, "exp_annotations": {"summary": summary}}] if name in wanted else []
        rows.append({"eval_time": "29m", "alertname": name, "exp_alerts": came})
    rules = {"rule_files": [str(ALERTS)], "evaluation_interval": "1m"}
    text = json.dumps({**rules, "tests": [{"interval": "1m", "input_series": series, "alert_rule_test": rows}]})
    status, said = called("promtool", "test", "rules", str(mltx.file("test.yml", text)))
    same(status, 0, f"the alerts: {said}")


@test
def unit_of_systemd(mltx: Program) -> None:
    """It is one, and what the server may do is little: an exposure below 3. Its data stay where they are."""
    match(r"(?m)^StateDirectory=mltx$", UNIT.read_text())
    match(r"(?m)^ExecStart=.* --data %S/mltx ", UNIT.read_text())
    if is_there("systemd-analyze"):
        # The program is not installed here.
        unit = mltx.folder / "mltx.service"
        unit.write_text(re.sub(r"/usr/local/bin/mltx", "/bin/true", UNIT.read_text()).replace("Documentation=", "#"))
        status, said = called("systemd-analyze", "verify", "--man=no", str(unit))
        same((status, said), (0, ""), "what it says of the unit")
        status, said = called("systemd-analyze", "security", "--no-pager", "--offline=true", "--threshold=29", str(unit))
        same(status, 0, f"the exposure: {said[-200:]}")
