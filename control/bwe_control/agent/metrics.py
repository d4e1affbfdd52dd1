"""The agent's metrics, in the text that Prometheus reads."""

from __future__ import annotations

import time
from collections.abc import Iterator

from prometheus_client import CollectorRegistry, start_http_server
from prometheus_client.core import CounterMetricFamily, GaugeMetricFamily, Metric
from prometheus_client.registry import Collector

from bwe_control.agent.loop import Agent


class AgentCollector(Collector):
    """Reads the agent when it is asked, so that a round sets no metric."""

    def __init__(self, agent: Agent) -> None:
        self._agent = agent

    def collect(self) -> Iterator[Metric]:
        yield from self._of_tasks()
        yield from self._of_the_agent()

    def _of_tasks(self) -> Iterator[Metric]:
        kbits = "kilobits per second"
        gauges = [
            ("limit_kbps", f"rate of the task's class, {kbits}", "limit"),
            ("rate_kbps", f"sent on the wire in the last period, {kbits}", "rate"),
            ("demand_kbps", f"what the task asks for, {kbits}", "demand"),
            ("held", "1 where the limit holds the task", "is_held"),
            ("backlog_bytes", "waiting in the task's class", "backlog_bytes"),
        ]
        tasks = self._agent.tasks
        for name, help_text, field in gauges:
            gauge = GaugeMetricFamily(f"bwe_agent_task_{name}", help_text, labels=["task"])
            for task in tasks:
                gauge.add_metric([task.name], float(getattr(task, field)))
            yield gauge
        counters = [
            ("sent_bytes", "sent on the wire by the task", "sent_bytes"),
            ("drops", "packets dropped in the task's class", "drops"),
        ]
        for name, help_text, field in counters:
            counter = CounterMetricFamily(f"bwe_agent_task_{name}", help_text, labels=["task"])
            for task in tasks:
                counter.add_metric([task.name], float(getattr(task, field)))
            yield counter

    def _of_the_agent(self) -> Iterator[Metric]:
        agent = self._agent
        age = time.monotonic() - agent.in_force_at if agent.in_force_at is not None else float("nan")
        gauges = [
            ("prefix", "prefix of the limits in force, 0 before any", agent.state.prefix or 0),
            ("prefix_age_seconds", "since this agent put them in force", age),
            ("connected", "1 where the store answers", agent.is_connected),
            ("batch_seconds", "time of the last batch of changes", agent.counts.batch_seconds),
            ("batch_changes", "classes in the last batch", agent.counts.batch_changes),
            ("round_cpu_seconds", "processor time of the last round", agent.round_seconds),
            ("missing_tasks", "tasks that the table has no limit for", len(agent.missing)),
        ]
        for name, help_text, value in gauges:
            yield GaugeMetricFamily(f"bwe_agent_{name}", help_text, float(value))
        counters = [
            ("tc_errors", "requests that the kernel refused", agent.counts.errors),
            ("drifts", "changes of others that were set back", agent.counts.drifts),
            ("adopted", "classes that were there at the start", agent.counts.adopted),
            ("refused_slices", "limits older than those in force", agent.refused_slices),
            ("unclassified_bytes", "sent by what no task matches", agent.unclassified_bytes),
        ]
        for name, help_text, value in counters:
            yield CounterMetricFamily(f"bwe_agent_{name}", help_text, float(value))


def serve_metrics(agent: Agent, port: int) -> None:
    """Serves `/metrics` on the loopback, on a thread of its own."""
    registry = CollectorRegistry()
    registry.register(AgentCollector(agent))
    start_http_server(port, addr="127.0.0.1", registry=registry)
