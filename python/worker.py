#!/usr/bin/env python3
"""A worker for jobs: lines of standard input are jobs for four threads, which take the urgent ones first.

    printf '%s\n' 'urgent: mend' 'sweep' 'paint' | ./worker.py jobs.queues

What a worker has begun is done; jobs that are left when it is interrupted stand in the file for its next run.
"""

import os
import sys
import threading

import msgq

KEY, URGENT, USUAL, END = 1, 1, 2, 3


def work(jobs):
    # The lowest type first: the urgent jobs, then the usual ones, then the end.
    while (job := jobs.receive(-END)).type != END:
        # One write a line: `print` writes what ends a line by itself, and another worker's line may come between.
        print(f"{threading.current_thread().name} did {job.body.decode()}\n", end="", flush=True)


def main(path):
    if not os.path.exists(path):
        msgq.create(path)
    with msgq.open(path) as queues:
        jobs = queues.get(KEY, create=True)
        for line in sys.stdin:
            line = line.rstrip("\n")
            body = line.encode()
            if len(body) > 1024:
                print(f"worker.py: a job of {len(body):,} bytes; 1,024 are possible", file=sys.stderr)
                continue
            jobs.send(body, URGENT if line.startswith("urgent:") else USUAL)
            queues.save()
        workers = [threading.Thread(target=work, args=(jobs,)) for _ in range(4)]
        for worker in workers:
            worker.start()
        for _ in workers:
            jobs.send(b"", END)
        for worker in workers:
            worker.join()


if __name__ == "__main__":
    if len(sys.argv) != 2:
        sys.exit("usage: worker.py FILE")
    main(sys.argv[1])
