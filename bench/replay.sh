#!/usr/bin/env bash
# Plays three generated schedules of 300,000 lines with `plx replay`, and prints plain events and input bytes a processor second and peak
# memory, beside the processor time that `cat` takes over the same bytes. Each word is a further program that is timed in turn with it, such as
# an older build; one from before there were leases plays the rounds of `attaches` without them, and no other schedule. Not a part of the gate.
set -eu
cd "$(dirname "$0")/.."
work=$(mktemp -d)
trap 'rm -rf "$work"' EXIT

# Builds plx, and finds it.
(cd crates/plx && rt run -- replay < ../../examples/first.plx > "$work/build" 2>&1) || { cat "$work/build" >&2; exit 1; }
plx=crates/plx/out/plx
[ -x "$plx" ] || { echo "replay.sh: $plx isn't there" >&2; exit 1; }

# attaches: 64 writes fill the journal; then rounds of a crash, an attach that waits for the lease of the boot before and reads 64
# descriptors with their data, and reads.
# landings: rounds of an attach of an empty journal, a write whose sectors land one by one but for the first of its descriptor, and a
# crash.
# contention: eight appliances and four images. In each round two appliances claim each image; one of them finds it busy. The other one
# writes and reads, and then detaches the image, or dies in the middle of a write whose last sectors come too late.
python3 - "$work" <<'PY'
import sys
LINES = 300_000

# How many plain events a run takes: one of a claim up to its wait, and one whose write is issued, lands in eight sectors and is done.
CLAIM, DONE = 13, 10

def claimed(slot):
    """Appliance 0 attaches an image slot, up to its wait's end."""
    return [(f"start 0 attach {slot}", 1), ("run 0", CLAIM), ("tick 601", 1)]

def created():
    """Appliance 0 attaches slot 0, which is free, and makes an image there."""
    return claimed(0) + [("run 0", 4), ("start 0 create 0 8 disk", 1), ("run 0", 1 + DONE + 1)]

def attaches():
    yield from [("world 1 1 16 64 1", 0)] + created()
    for number in range(64):
        yield from [(f"start 0 write 0 {number % 8} all:{number:02x}", 1), ("run 0", 1 + DONE + DONE + 1)]
    while True:
        yield from [("crash 0", 1), ("tick 9500", 1)] + claimed(0) + [("run 0", 3 + 128 + 1)]
        for vblock in range(8):
            yield from [("tick 1", 1), (f"start 0 read 0 {vblock}", 1), ("run 0", 2)]

def attaches_without_leases():
    yield from [("world 1 1 16 64 1", 0), ("start 0 attach 0", 1), ("run 0", 1 + 64 + 1)]
    for number in range(64):
        yield from [(f"start 0 write 0 {number % 8} all:{number:02x}", 1), ("run 0", 1 + DONE + DONE + 1)]
    while True:
        yield from [("crash 0", 1), ("start 0 attach 0", 1), ("run 0", 1 + 128 + 1)]
        for vblock in range(8):
            yield from [("tick 1", 1), (f"start 0 read 0 {vblock}", 1), ("run 0", 2)]

def landings():
    yield from [("world 1 1 16 2 1", 0)] + created()
    time, number = 1601, 0
    while True:
        yield from [(f"start 0 write 0 {number % 8} all:{number % 256:02x}", 1), (f"clock 0 {time}", 1), ("issue 0", 1)]
        yield from [(f"land 0 0 {(5 * place + number) % 8}", 1) for place in range(8)]
        yield from [("done 0", 1), ("issue 0", 1)]
        yield from [(f"land 0 0 {sector}", 1) for sector in range(7, 0, -1)]
        yield from [("crash 0", 1), ("tick 9500", 1)] + claimed(0) + [("run 0", 3 + 2 + 1)]
        time, number = time + 10_101, number + 1

def contention():
    images, slots, appliances = 4, 8, 8
    yield (f"world {images} 1 16 {slots} {appliances}", 0)
    writes, rounds = [None] * images, 0
    while True:
        pairs = [((2 * image + rounds) % appliances, (2 * image + 1 + rounds) % appliances) for image in range(images)]
        for image, (loser, holder) in enumerate(pairs):
            yield from [(f"start {one} attach {image}", 1) for one in (loser, holder)]
            yield from [(f"upto {one} claim", 3) for one in (loser, holder)]
            yield from [(f"run {one}", DONE) for one in (loser, holder)]
        yield ("tick 601", 1)
        for image, (loser, holder) in enumerate(pairs):
            found = writes[image]
            yield from [(f"run {loser}", 2), (f"run {holder}", 4 if found is None else 3 + slots + found + 1)]
            if found == slots:
                yield from [(f"start {holder} delete {image}", 1), (f"run {holder}", 1 + DONE + 1)]
            if found in (None, slots):
                yield from [(f"start {holder} create {image} 8 disk", 1), (f"run {holder}", 1 + DONE + 1)]
                writes[image] = 0
            yield from [(f"start {holder} write {image} {rounds % 8} all:{rounds % 256:02x}", 1), (f"run {holder}", 1 + DONE + DONE + 1)]
            writes[image] += 1
            yield from [(f"start {holder} read {image} {rounds % 8}", 1), (f"run {holder}", 2)]
            if (image + rounds) % 2:
                yield from [(f"start {holder} detach {image}", 1), (f"run {holder}", 1 + DONE)]
            elif writes[image] < slots:
                yield from [(f"start {holder} write {image} 0 all:ff", 1), (f"upto {holder} jcommit", 1 + DONE), (f"issue {holder}", 1)]
                yield from [(f"land {holder} 0 {sector}", 1) for sector in (7, 2, 5)] + [(f"crash {holder}", 1)]
            else:
                yield (f"crash {holder}", 1)
        yield ("tick 9500", 1)
        yield from [(f"land {holder} 0 0", 0) for _, holder in pairs]
        rounds += 1

for schedule in attaches, attaches_without_leases, landings, contention:
    name, lines, events = schedule.__name__, schedule(), 0
    with open(f"{sys.argv[1]}/{name}", "w") as out:
        for _, (line, count) in zip(range(LINES), lines):
            print(line, file=out)
            events += count
    with open(f"{sys.argv[1]}/{name}.events", "w") as out:
        print(events, file=out)
PY

python3 - "$work" "$plx" "$@" <<'PY'
import os, subprocess, sys
work, programs = sys.argv[1], sys.argv[2:]

def timed(command, name):
    """The status of a command over a schedule, its processor seconds and its peak memory in MiB."""
    with open(f"{work}/{name}") as source, open(os.devnull, "w") as null:
        child = subprocess.Popen(command, stdin=source, stdout=null, stderr=null)
        _, status, used = os.wait4(child.pid, 0)
    return status, used.ru_utime + used.ru_stime, used.ru_maxrss / 1024

def played(program, names):
    """The program with the first of these schedules that it plays, or nothing."""
    return [(program, name) for name in names if timed([program, "replay"], name)[0] == 0][:1]

for names in ["attaches", "attaches_without_leases"], ["landings"], ["contention"]:
    turns = [turn for program in programs for turn in played(program, names)]
    if (programs[0], names[0]) not in turns:
        sys.exit(f"replay.sh: {programs[0]} doesn't play {names[0]}")
    rounds = [[timed([program, "replay"], name) for program, name in turns] for _ in range(9)]
    for (program, name), runs in zip(turns, zip(*rounds)):
        if any(status for status, _, _ in runs):
            sys.exit(f"replay.sh: {program} played {name} once, and then ended with another status")
        size, events = os.path.getsize(f"{work}/{name}"), int(open(f"{work}/{name}.events").read())
        best, median, peak = min(it[1] for it in runs), sorted(it[1] for it in runs)[4], max(it[2] for it in runs)
        print(f"{name}: 300000 lines, {size} input bytes, {events} plain events: {program}")
        print(f"  best of 9 {best:.3f} s, median {median:.3f} s, {events / best:,.0f} events/s, {size / best:,.0f} input bytes/s, peak memory {peak:.1f} MiB")
        print(f"  cat {min(timed(['cat'], name)[1] for _ in range(5)):.4f} s")
PY
