#!/usr/bin/env python3
"""Times the built program on large clusters. It is run by hand, and is no part of the gate.

    ./antrea build
    benchmarks/cluster.py

Prints the time of putting 20,000 pods in the order of their names and in random order, the cost of one put beside
1,000 and beside 20,000 pods, of one question beside 20,000 pods and 2,000 policies, and how fast lines of pods as
kubectl gives them are read. Each time is the least of several runs of `replay`, output included.
"""
import json
import os
import random
import subprocess
import tempfile
import time

PROGRAM = os.path.join(os.path.dirname(os.path.abspath(__file__)), '../crates/antrea_suite/out/antrea_suite')
NODE = {'kind': 'Node', 'metadata': {'name': 'n1'}, 'spec': {'podCIDR': '10.0.0.0/8'}}


def pod(i):
    address = '10.%d.%d.%d' % (i // 62500 + 1, i // 250 % 250, i % 250 + 1)
    return {'apiVersion': 'v1', 'kind': 'Pod', 'metadata': {'name': 'p%05d' % i, 'labels': {'app': 'a%d' % (i % 40)}},
            'spec': {'nodeName': 'n1'}, 'status': {'phase': 'Running', 'podIP': address}}


def pod_of_kubectl(i):
    """A pod with what kubectl gives of it, about 2 KB."""
    value = pod(i)
    value['metadata'].update({
        'annotations': {'kubectl.kubernetes.io/last-applied-configuration': 'x' * 300, 'checksum/config': 'a' * 64},
        'creationTimestamp': '2024-05-01T10:00:00Z', 'generateName': 'api-7d9c5b6f8-', 'resourceVersion': str(4711 + i),
        'ownerReferences': [{'apiVersion': 'apps/v1', 'controller': True, 'kind': 'ReplicaSet', 'name': 'api-7d9c5b6f8'}],
        'uid': '2f000000-0000-4000-8000-%012d' % i})
    probe = {'failureThreshold': 3, 'httpGet': {'path': '/healthz', 'port': 8080, 'scheme': 'HTTP'}, 'periodSeconds': 10}
    value['spec'].update({
        'containers': [{
            'env': [{'name': 'NAME_%d' % k, 'valueFrom': {'fieldRef': {'apiVersion': 'v1', 'fieldPath': 'metadata.name'}}}
                    for k in range(4)],
            'image': 'registry.example.com/shop/api:1.2.3', 'imagePullPolicy': 'IfNotPresent', 'livenessProbe': probe,
            'readinessProbe': probe, 'name': 'api', 'ports': [{'containerPort': 8080, 'name': 'http', 'protocol': 'TCP'}],
            'resources': {'limits': {'cpu': '500m', 'memory': '256Mi'}, 'requests': {'cpu': '100m', 'memory': '128Mi'}}}],
        'dnsPolicy': 'ClusterFirst', 'hostNetwork': False, 'restartPolicy': 'Always', 'securityContext': {}})
    value['status'].update({
        'conditions': [{'lastTransitionTime': '2024-05-01T10:00:05Z', 'status': 'True', 'type': kind}
                       for kind in ('Initialized', 'Ready', 'ContainersReady', 'PodScheduled')],
        'hostIP': '192.168.0.11', 'podIPs': [{'ip': value['status']['podIP']}], 'qosClass': 'Burstable'})
    return value


def policy(i):
    peers = [{'podSelector': {'matchLabels': {'app': 'a%d' % ((i + 1) % 40)}}}]
    return {'apiVersion': 'networking.k8s.io/v1', 'kind': 'NetworkPolicy', 'metadata': {'name': 'k%04d' % i},
            'spec': {'podSelector': {'matchLabels': {'app': 'a%d' % (i % 40)}},
                     'ingress': [{'from': peers, 'ports': [{'port': 1000 + i}]}]}}


def question(i):
    own, peer = pod(i)['status']['podIP'], pod((i * 7) % 20000)['status']['podIP']
    return {'type': 'X-ASK', 'view': 'policies', 'node': 'n1', 'direction': 'ingress', 'own': own, 'peer': peer,
            'protocol': 'tcp', 'port': 1000 + i % 2000}


def seconds(values, runs):
    """The least time of a run over these values, each a line, and the bytes of the lines."""
    with tempfile.NamedTemporaryFile('w', suffix='.jsonl') as file:
        size = sum(file.write(json.dumps(value, separators=(',', ':')) + '\n') for value in values)
        file.flush()
        times = []
        for _ in range(runs):
            start = time.perf_counter()
            subprocess.run([PROGRAM, 'replay', file.name], stdout=subprocess.DEVNULL, check=True)
            times.append(time.perf_counter() - start)
    return min(times), size


def main():
    pods = [pod(i) for i in range(20000)]
    shuffled = random.Random(1).sample(pods, len(pods))
    print('20,000 pods by name: %.2f s; in random order: %.2f s' % (seconds([NODE, *pods], 3)[0], seconds([NODE, *shuffled], 2)[0]))
    for count in (1000, 19000):
        few, many = seconds([NODE, *pods[:count]], 15)[0], seconds([NODE, *pods[:count + 1000]], 15)[0]
        print('one put beside %d pods: %.1f microseconds' % (count, (many - few) * 1000))
    cluster = [NODE, *pods, *(policy(i) for i in range(2000))]
    bare, asked = seconds(cluster, 3)[0], seconds([*cluster, *(question(i) for i in range(10000))], 3)[0]
    print('one question beside 20,000 pods and 2,000 policies: %.0f microseconds' % ((asked - bare) * 100))
    took, size = seconds([NODE, *(pod_of_kubectl(i) for i in range(10000))], 5)
    print('10,000 lines of pods, %.1f KB each: %.0f MB/s' % (size / 1e7, size / took / 1e6))


main()
