#!/usr/bin/env python3
"""Times what one changed pod costs the controller. It is run by hand, and is no part of the gate.

    ./antrea build
    benchmarks/changed_pod.py

There are 64 nodes, 40 namespaces and 2,000 policies, with 1,000 pods and then with 20,000. Some 400 lines change the labels
of one pod each; the cost is what these lines add to a run of `replay`, output included, by the number of the lines. Each
time is the least of several runs.
"""
import json
import os
import subprocess
import tempfile
import time

PROGRAM = os.path.join(os.path.dirname(os.path.abspath(__file__)), '../crates/antrea_suite/out/antrea_suite')
NODES, SPACES, POLICIES, LINES, RUNS = 64, 40, 2000, 400, 3


def node(i):
    return {'kind': 'Node', 'metadata': {'name': 'n%02d' % i}, 'spec': {'podCIDR': '10.%d.0.0/16' % i}}


def space(i):
    return {'apiVersion': 'v1', 'kind': 'Namespace', 'metadata': {'name': 's%02d' % i}}


def pod(i, app):
    host = i // NODES
    return {'apiVersion': 'v1', 'kind': 'Pod',
            'metadata': {'name': 'p%05d' % i, 'namespace': 's%02d' % (i % SPACES), 'labels': {'app': 'a%02d' % app}},
            'spec': {'nodeName': 'n%02d' % (i % NODES)},
            'status': {'phase': 'Running', 'podIP': '10.%d.%d.%d' % (i % NODES, host // 250 + 1, host % 250 + 1)}}


def policy(i):
    space, app = i % SPACES, i // SPACES
    peers = [{'podSelector': {'matchLabels': {'app': 'a%02d' % ((app + 1) % 50)}}}]
    return {'apiVersion': 'networking.k8s.io/v1', 'kind': 'NetworkPolicy',
            'metadata': {'name': 'k%02d' % app, 'namespace': 's%02d' % space},
            'spec': {'podSelector': {'matchLabels': {'app': 'a%02d' % app}},
                     'ingress': [{'from': peers, 'ports': [{'port': 1000 + app}]}]}}


def in_lists(values, size):
    """The values in objects of kind List, as kubectl gives many."""
    return [{'apiVersion': 'v1', 'kind': 'List', 'items': values[i:i + size]} for i in range(0, len(values), size)]


def seconds(values):
    """The least time of a run over these values, each a line."""
    with tempfile.NamedTemporaryFile('w', suffix='.jsonl') as file:
        for value in values:
            file.write(json.dumps(value, separators=(',', ':')) + '\n')
        file.flush()
        times = []
        for _ in range(RUNS):
            start = time.perf_counter()
            subprocess.run([PROGRAM, 'replay', file.name], stdout=subprocess.DEVNULL, check=True)
            times.append(time.perf_counter() - start)
    return min(times)


def main():
    nodes = [node(i) for i in range(NODES)]
    rest = [space(i) for i in range(SPACES)] + [policy(i) for i in range(POLICIES)]
    for count in (1000, 20000):
        pods = [pod(i, i // SPACES % 50) for i in range(count)]
        before = nodes + in_lists(pods, 2000) + in_lists(rest, 2000)
        changed = [pod(i * 17 % count, i * 17 % count // SPACES % 50 + 1) for i in range(LINES)]
        base = seconds(before)
        cost = (seconds(before + changed) - base) / LINES
        print('%d pods: %.2f s until all are there, then %.0f microseconds for one changed pod' % (count, base, cost * 1e6))


if __name__ == '__main__':
    main()
