#!/usr/bin/env python3
"""Times the replay of made scripts by the built program.

usage: replay.py PROGRAM [SCRIPT [COUNT ..]]

Build the program first: `rt run` in crates/zulip_main leaves it as out/zulip_main there. Each SCRIPT has an announcement, a
push and a poll at the end of each hundred lines:
  renames   one user is renamed over and over; each poll acknowledges what the one before answered (100,000 and 200,000 lines)
  people    fifty users and ten streams, with renames, subscriptions, unsubscriptions and changes of streams (500 and 1,000)
  messages  twenty users and five streams: of a hundred lines 60 are messages, 25 flags, 10 reactions, and 5 edits, moves,
            deletions and changes of people and streams (2,000 and 4,000)
  mixed     a hundred users, and twenty streams of ten subscribers: of a hundred lines 55 are messages, 25 flags, 10 reactions, and
            7 edits, moves, deletions and changes of people and streams; ten clients hear of messages, and acknowledge (100,000
            and 200,000 lines)
  crowded   a stream with two thousand subscribers, each with a queue, and messages to it (1,000 and 2,000 messages)
  kept      one queue that nobody polls: a rename of the realm, an announcement and a push for each item (5,000 and 10,000 items)
  passed    one queue whose client polls each item at once (10,000 and 20,000 items)
  spread    a hundred pushes, each of one event to every queue (1,000 and 2,000 queues); the time of the same lines without the
            pushes is taken off, each as the least of five
All are timed where none is named. Prints for each count the time, the ratio to the one before, and the greatest memory of the
program so far.
"""
import os
import resource
import subprocess
import sys
import tempfile
import time

ROUND = 100


def opened(users, streams):
    """Lines that add users and streams, and register each user."""
    lines = ["user_add 0 u1@x.org u1 100 k1"]
    lines += [f"user_add 1 u{user}@x.org u{user} 400 k{user}" for user in range(2, users + 1)]
    lines += [f"stream_create 1 s{stream} % public" for stream in range(1, streams + 1)]
    lines += [f"subscribe 1 {stream} {user}" for stream in range(1, streams + 1) for user in range(2, users + 1, 2)]
    return lines + ["notice", "push 0"] + [f"register {user} * *" for user in range(1, users + 1)]


def rounds(lines, count, command, poll):
    """Goes on to so many lines: commands by their number, and a poll by how many commands stood at the poll before it."""
    turn = told = 0
    while len(lines) < count:
        place = len(lines) % ROUND
        if place == ROUND - 3:
            lines.append("notice")
        elif place == ROUND - 2:
            lines.append("push 0")
        elif place == ROUND - 1:
            lines.append(poll(told))
            told = turn
        else:
            lines.append(command(turn))
            turn += 1
    return lines


def poll_in_turn(users):
    return lambda told: f"poll {told % users + 1} {told % users + 1}.0 -1"


def renames(count):
    opening = ["user_add 0 ann@x.org Ann 100 k1", "notice", "push 0", "register 1 * realm_user"]
    return rounds(opening, count, lambda turn: f"user_update 1 1 Ann{turn}", lambda told: f"poll 1 1.0 {told - 1}")


def people(count):
    users, streams = 50, 10

    def command(turn):
        user, stream = turn % users + 1, turn % streams + 1
        return (
            f"user_update {user} {user} n{turn}",
            f"subscribe 1 {stream} {user}",
            f"stream_update 1 {stream} description d{turn}",
            f"unsubscribe 1 {stream} {user}",
        )[turn % 4]

    return rounds(opened(users, streams), count, command, poll_in_turn(users))


def messages(count):
    users, streams = 20, 5

    def command(turn):
        user, stream, message = turn * 7 % users + 1, turn % streams + 1, turn * 3 // 5 + 1
        kind = turn % 20
        if kind < 12:
            return f"send_stream 1 {stream} t{turn % 3} m{turn}" if turn % 5 else f"send_dm {user} {turn % users + 1} m{turn}"
        if kind < 17:
            return f"flags 1 add {('read', 'starred')[turn % 2]} {max(1, message - turn % 9)}"
        if kind < 19:
            return f"reaction_add 1 {max(1, message - turn % 9)} tada"
        return (
            f"edit_content 1 {max(1, message - 2)} e{turn}",
            f"move 1 {max(1, message - 3)} {stream} t0 one",
            f"delete 1 {max(1, message - 4)}",
            f"user_update {user} {user} n{turn}",
            f"stream_update 1 {stream} description d{turn}",
        )[turn // 20 % 5]

    return rounds(opened(users, streams), count, command, poll_in_turn(users))


def mixed(count):
    users, streams, clients = 100, 20, 10
    lines = ["user_add 0 u1@x.org u1 100 k1"]
    lines += [f"user_add 1 u{user}@x.org u{user} 400 k{user}" for user in range(2, users + 1)]
    lines += [f"stream_create 1 s{stream} % public" for stream in range(1, streams + 1)]
    subscribers = {stream: {1, *((stream * 7 + step * 11) % users + 1 for step in range(9))} for stream in range(1, streams + 1)}
    lines += [f"subscribe 1 {stream} {user}" for stream in subscribers for user in sorted(subscribers[stream] - {1})]
    lines += ["notice", "push 0"] + [f"register {user} message -" for user in range(1, clients + 1)]
    sent, heard, acknowledged = [], [0] * (users + 1), [-1] * (users + 1)

    def send(receivers, line):
        sent.append(line)
        for user in receivers:
            heard[user] += 1
        return line

    def command(turn):
        kind, stream, user = turn % 97, turn % streams + 1, turn * 7 % users + 1
        message = max(1, len(sent) - turn % 31)
        if kind < 55 and turn % 5:
            return send(subscribers[stream] | {1}, f"send_stream 1 {stream} t{turn % 3} m{turn}")
        if kind < 55:
            return send({1, user}, f"send_dm 1 {user} m{turn}")
        if kind < 80:
            return f"flags 1 add {('read', 'starred')[turn % 2]} {message}"
        if kind < 90:
            return f"reaction_add 1 {message} {('tada', 'smile', 'heart')[turn % 3]}"
        if kind == 95:
            subscribers[stream].add(user)
        if kind == 96:
            subscribers[stream].discard(user)
        return (
            f"edit_content 1 {message} e{turn}",
            f"move 1 {message} {stream} t{turn % 5} one",
            f"delete 1 {message}",
            f"user_update {stream} {stream} n{turn}",
            f"stream_update 1 {stream} description d{turn}",
            f"subscribe 1 {stream} {user}",
            f"unsubscribe 1 {stream} {user}",
        )[kind - 90]

    def poll(turn):
        user = turn // 97 % clients + 1
        line = f"poll {user} {user}.0 {acknowledged[user]}"
        acknowledged[user] = heard[user] - 1
        return line

    return rounds(lines, count, command, poll)


def crowded(count, users=2_000):
    """So many messages to a stream with many subscribers, each with a queue."""
    lines = ["user_add 0 u1@x.org u1 100 k1", "stream_create 1 s % public"]
    lines += [f"user_add 1 u{user}@x.org u{user} 400 k{user}" for user in range(2, users + 1)]
    lines += [f"subscribe 1 1 {user}" for user in range(2, users + 1)]
    lines += ["notice", "push 0"] + [f"register {user} message -" for user in range(1, users + 1)]
    for turn in range(count):
        lines.append(f"send_stream 1 1 t{turn % 3} m{turn}")
        if turn % 100 == 99:
            lines += ["notice", "push 0"]
    return lines


def one_queue(count, poll):
    """An item for each count, with what the client does then."""
    lines = ["user_add 0 ann@x.org Ann 100 k1", "notice", "push 0", "register 1 realm -"]
    for item in range(count):
        lines += [f"realm_update 1 name n{item}", "notice", "push 0", *poll(item)]
    return lines + [f"poll 1 1.0 {count - 1 if poll(0) else -1}"]


def kept(count):
    return one_queue(count, lambda item: [])


def passed(count):
    return one_queue(count, lambda item: [f"poll 1 1.0 {item - 1}"])


def spread(count, push=("push 0",)):
    users = -(-count // 32)
    lines = ["user_add 0 u1@x.org u1 100 k1"]
    lines += [f"user_add 1 u{user}@x.org u{user} 400 k{user}" for user in range(2, users + 1)]
    lines += ["notice", "push 0"] + [f"register {queue // 32 + 1} realm -" for queue in range(count)]
    for turn in range(100):
        lines += [f"realm_update 1 name n{turn}", "notice", *push]
    return lines


SCRIPTS = {
    "renames": (renames, [100_000, 200_000]),
    "people": (people, [500, 1_000]),
    "messages": (messages, [2_000, 4_000]),
    "mixed": (mixed, [100_000, 200_000]),
    "crowded": (crowded, [1_000, 2_000]),
    "kept": (kept, [5_000, 10_000]),
    "passed": (passed, [10_000, 20_000]),
    "spread": (spread, [1_000, 2_000]),
}


def replay(program, lines):
    """The seconds that a replay takes, and the greatest memory in KiB of any replay so far."""
    with tempfile.TemporaryFile() as source, tempfile.TemporaryFile() as sink:
        source.write(("\n".join(lines) + "\n").encode())
        source.seek(0)
        begin = time.perf_counter()
        ended = subprocess.run([program, "replay"], stdin=source, stdout=sink, stderr=subprocess.PIPE)
        seconds = time.perf_counter() - begin
        sink.seek(0)
        printed = sum(1 for _ in sink)
    if ended.returncode != 0:
        sys.exit(f"status {ended.returncode}: {ended.stderr.decode().strip()}")
    if printed != len(lines):
        sys.exit(f"{printed} lines were printed for {len(lines)}")
    return seconds, resource.getrusage(resource.RUSAGE_CHILDREN).ru_maxrss


def least(program, lines):
    return min(replay(program, lines)[0] for _ in range(5))


def main():
    words = sys.argv[1:]
    if not words or len(words) > 1 and words[1] not in SCRIPTS:
        sys.exit(__doc__.strip())
    program = os.path.abspath(words[0])
    for name in words[1:2] or SCRIPTS:
        script, counts = SCRIPTS[name]
        before = None
        for count in [int(word) for word in words[2:]] or counts:
            seconds, memory = replay(program, script(count))
            if script is spread:
                seconds = least(program, spread(count)) - least(program, spread(count, ()))
            ratio = f", {seconds / before:.2f} times the one before" if before else ""
            print(f"{name}, {count}: {seconds:.3f} s{ratio}, at most {memory / 1024:.1f} MiB")
            before = seconds


main()
