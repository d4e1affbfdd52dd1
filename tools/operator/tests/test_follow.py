"""`bwe-tools follow`, over answers of `bwe-live`."""

from tool_runs import EXAMPLES, fails, needs_program, run

TABLE = (EXAMPLES / "shared-link.txt").read_text()
CHANGE = """change 3
closings 1
closing l0 at 60
group g0 share 60 amount 60
place 0 amount 60 closed by l0
group g1 share 60 amount 40
place 0 amount 40 closed by l0
task t0 limit 60
task t1 limit 40
total 100
"""
STATE = "demand r0 t0 80\ndemand r0 t1 40\nstate 3\n"


def followed(folder, answers):
    return run("follow", EXAMPLES / "shared-link.json", folder, given=answers.encode())


def test_the_table_and_its_metrics_are_kept_current(tmp_path):
    assert followed(tmp_path, TABLE).status == 0
    assert (tmp_path / "table.txt").read_text() == TABLE
    assert followed(tmp_path, TABLE + CHANGE).status == 0
    table = (tmp_path / "table.txt").read_text()
    assert table.startswith("table 3\nclosing l0 at 60\nlink l0 load 100\ngroup g0 share 60")
    assert "bwe_reports 3\n" in (tmp_path / "bwe.prom").read_text()
    assert not (tmp_path / "page.html").exists()


@needs_program
def test_a_state_gives_the_page_of_what_was_reported(tmp_path):
    assert followed(tmp_path, TABLE + CHANGE + STATE).status == 0
    page = (tmp_path / "page.html").read_text()
    assert "40 kbit/s" in page and "of 120 kbit/s asked" in page


def test_refused_lines_are_told_and_other_text_is_refused(tmp_path):
    answer = followed(tmp_path, TABLE + "refused line 4 cause 2\n" + CHANGE)
    assert answer.status == 0 and answer.err == "bwe-tools: refused line 4 cause 2\n"
    text = fails("follow", EXAMPLES / "shared-link.json", tmp_path, given=b"hello\n")
    assert "`hello` is no answer of bwe-live" in text
