"""What allocators and pages measure, as Prometheus takes it."""

import re
import shutil
import subprocess
import urllib.request

import pytest
from deployment import ROOT, needs_live
from etcd_cluster import free_port

pytestmark = needs_live


def scraped(port):
    return urllib.request.urlopen(f"http://127.0.0.1:{port}/metrics", timeout=30).read().decode()


def value(text, name):
    found = re.findall(rf"^{re.escape(name)} (\S+)$", text, re.M)
    assert found, f"no {name} in\n{text}"
    return float(found[0])


def test_promtool_takes_the_metrics_and_they_say_what_is(own):
    port = free_port()
    own.init()
    own.allocate("a", "--metrics", str(port))
    revision = own.report("hosts", "demand pages-0 5\nwrong\n")
    own.wait_posted(own.report("rx", ""))
    own.wait_posted(own.init(b"{}"))
    own.wait(lambda: value(scraped(port), "bwe_control_document_refused") == 1)
    own.wait(lambda: value(scraped(port), "bwe_control_ignored_reports") == 1)
    text = scraped(port)
    assert value(text, "bwe_control_leader") == 1
    assert value(text, "bwe_control_posts_total") >= 1
    assert value(text, "bwe_control_posted_prefix_revision") >= revision
    assert value(text, "bwe_control_prefix_lag_revisions") == 0
    assert value(text, 'bwe_control_refused_lines{reporter="hosts"}') == 1
    assert value(text, "bwe_control_ignored_reports") == 1
    assert value(text, "bwe_control_store_away") == 0
    assert value(text, 'bwe_control_report_age_seconds{reporter="hosts"}') >= 0
    for name in ("read", "table", "write"):
        assert value(text, f"bwe_control_{name}_seconds_count") >= 1
    if shutil.which("promtool"):
        ran = subprocess.run(
            ["promtool", "check", "metrics"],
            input=text,
            capture_output=True,
            text=True,
            check=False,
        )
        assert (ran.returncode, ran.stderr) == (0, "")


def test_each_metric_of_an_alert_is_one_that_is_served(own):
    rules = (ROOT / "control/alerts/bwe-control.rules.yml").read_text()
    port = free_port()
    own.init()
    own.allocate("a", "--metrics", str(port))
    own.wait_posted(own.report("hosts", "wrong\n"))
    own.wait(lambda: "refused_lines{" in scraped(port))
    text = scraped(port)
    for name in set(re.findall(r"bwe_control_\w+", rules)):
        assert re.search(rf"^{name}[ {{]", text, re.M), name
    assert own.run("allocate", "--metrics", str(port), status=2) == ""
