"""The page in a real browser: it follows the tables, with the store and the page down and up."""

import shutil
import urllib.error
import urllib.request

import pytest
from browser import Browser
from deployment import Deployment, needs_bwe, needs_live
from etcd_cluster import Cluster, free_port

pytestmark = [
    needs_live,
    needs_bwe,
    pytest.mark.skipif(shutil.which("chromium") is None, reason="there is no chromium"),
]


@pytest.fixture
def browser():
    one = Browser()
    yield one
    one.close()


@pytest.fixture
def cluster(tmp_path):
    if shutil.which("etcd") is None:
        pytest.skip("there is no etcd")
    with Cluster(tmp_path, members=1) as made:
        yield made


def limit(task):
    """JavaScript: what the page says of a task."""
    return (
        "[...document.querySelectorAll('#tasks tbody tr')].filter((it) => it.cells[0].innerText"
        f".startsWith('{task}')).map((it) => Number(it.cells[3].dataset.v))[0]"
    )


NOTICE = "!document.getElementById('notice').hidden"


def test_the_page_follows_the_tables(cluster, browser, tmp_path):
    deployment, port = Deployment(cluster.store, tmp_path), free_port()
    try:
        deployment.init()
        deployment.allocate("a")
        deployment.wait_posted(deployment.report("hosts", "demand pages-0 5000000\n"))
        page = deployment.start("page", "--port", str(port), log="page.log")
        deployment.wait(lambda: "the page is at" in deployment.log("page"))
        browser.open(f"http://127.0.0.1:{port}/")
        browser.wait(f"{limit('pages-0')} === 5000000")
        browser.wait("document.getElementById('standing').innerText.includes('Leader: a')")
        # What a reader has typed and sorted by stays when another table comes.
        browser.evaluate(
            "(() => { const it = document.querySelector('#tasks input[type=search]');"
            " it.value = 'pages'; it.dispatchEvent(new Event('input'));"
            " document.querySelector('#tasks th button').click(); })()"
        )
        deployment.wait_posted(deployment.report("hosts", "demand pages-0 3000000\n"))
        browser.wait(f"{limit('pages-0')} === 3000000")
        assert (
            browser.evaluate("document.querySelector('#tasks input[type=search]').value") == "pages"
        )
        assert browser.evaluate("document.querySelectorAll('#tasks th[aria-sort]').length") == 1
        hidden = "[...document.querySelectorAll('#tasks tbody tr[hidden]')].length"
        assert browser.evaluate(hidden) == 1
        assert browser.evaluate(NOTICE) is False
        # The store goes away, and the last table stays under a notice.
        cluster.kill(0)
        browser.wait(NOTICE)
        assert browser.evaluate(limit("pages-0")) == 3000000
        cluster.start(0)
        browser.wait(f"!({NOTICE})")
        deployment.wait(lambda: deployment.report("hosts", "demand pages-0 2000000\n") > 0)
        browser.wait(f"{limit('pages-0')} === 2000000")
        # The page itself goes away.
        page.kill()
        page.wait()
        browser.wait(
            f"{NOTICE} && document.getElementById('notice').innerText.includes('no answer')"
        )
        assert browser.evaluate(limit("pages-0")) == 2000000
        deployment.start("page", "--port", str(port), log="page.log")
        browser.wait(f"!({NOTICE})")
        # Its metrics, and what it does not have.
        text = urllib.request.urlopen(f"http://127.0.0.1:{port}/metrics").read().decode()
        assert "bwe_control_has_leader" in text
        with pytest.raises(urllib.error.HTTPError):
            urllib.request.urlopen(f"http://127.0.0.1:{port}/../etc/passwd")
    finally:
        deployment.close()


def test_the_page_before_any_table(browser, tmp_path):
    deployment, port = Deployment(f"sqlite:{tmp_path / 'control'}", tmp_path), free_port()
    try:
        deployment.init()
        deployment.start("page", "--port", str(port), log="page.log")
        deployment.wait(lambda: "the page is at" in deployment.log("page"))
        browser.open(f"http://127.0.0.1:{port}/")
        browser.wait("!!document.body && document.body.innerText.includes('No table is posted')")
        deployment.allocate("a")
        deployment.wait_posted(deployment.report("hosts", "demand pages-0 5000000\n"))
        browser.wait(f"{limit('pages-0')} === 5000000")
    finally:
        deployment.close()
