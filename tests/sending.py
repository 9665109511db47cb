"""Ways to send a script to a program: whole, in pieces, byte by byte, or each
line only after the reply to the one before it. Each gives the output, and None
or what else went wrong."""

import os
import random
import select
import subprocess
import threading
import time

RUN_LIMIT_SECONDS = 600
TURN_LIMIT_SECONDS = 20


def trouble_of_status(status):
    return None if status == 0 else "exit status %d" % status


def send_whole(command, script, _replies):
    try:
        done = subprocess.run(command, input=script.data(),
                              stdout=subprocess.PIPE,
                              timeout=RUN_LIMIT_SECONDS)
    except subprocess.TimeoutExpired as late:
        return late.stdout or b"", "not done in %d s" % RUN_LIMIT_SECONDS
    return done.stdout, trouble_of_status(done.returncode)


def start(command):
    return subprocess.Popen(
        command, stdin=subprocess.PIPE, stdout=subprocess.PIPE)


def close_input(process):
    try:
        process.stdin.close()
    except BrokenPipeError:
        pass


def write_piece(process, piece):
    """False where the program no longer reads."""
    try:
        process.stdin.write(piece)
        process.stdin.flush()
        return True
    except BrokenPipeError:
        return False


def end(process):
    try:
        return trouble_of_status(process.wait(RUN_LIMIT_SECONDS))
    except subprocess.TimeoutExpired:
        process.kill()
        process.wait()
        return "not ended in %d s" % RUN_LIMIT_SECONDS


def send_pieces(command, pieces, pause_seconds):
    process = start(command)
    output = []
    reader = threading.Thread(
        target=lambda: output.append(process.stdout.read()))
    reader.start()
    for piece in pieces:
        if not write_piece(process, piece):
            break
        time.sleep(pause_seconds)
    close_input(process)
    trouble = end(process)
    reader.join()
    process.stdout.close()
    return output[0], trouble


def send_random_pieces(command, script, _replies):
    data = script.data()
    source = random.Random("pieces of " + script.name)
    cuts = sorted(source.randrange(len(data) + 1) for _ in range(7))
    bounds = [0] + cuts + [len(data)]
    pieces = [data[a:b] for a, b in zip(bounds, bounds[1:])]
    return send_pieces(command, pieces, 0.03)


def send_single_bytes(command, script, _replies):
    data = script.data()
    pieces = [data[k:k + 1] for k in range(len(data))]
    return send_pieces(command, pieces, 0.0005)


def read_reply(process, wanted):
    """Reads until so many bytes are there, the output ends or time is up."""
    reply = b""
    deadline = time.monotonic() + TURN_LIMIT_SECONDS
    while len(reply) < wanted:
        left = deadline - time.monotonic()
        if left <= 0 or not select.select([process.stdout], [], [], left)[0]:
            return reply, "no full reply in %d s" % TURN_LIMIT_SECONDS
        piece = os.read(process.stdout.fileno(), 65536)
        if not piece:
            return reply, "output ended early"
        reply += piece
    return reply, None


def send_in_turns(command, script, replies):
    """A line is written only after the full reply to the one before it."""
    process = start(command)
    output, trouble = b"", None
    for line, expected in zip(script.lines, replies):
        if not write_piece(process, line + b"\n"):
            trouble = "input closed early"
        else:
            reply, trouble = read_reply(process, len(expected))
            output += reply
        if trouble:
            process.kill()
            break
    close_input(process)
    status_trouble = end(process)
    output += process.stdout.read()
    process.stdout.close()
    return output, trouble or status_trouble


SENDERS = {
    "whole": send_whole,
    "pieces": send_random_pieces,
    "bytes": send_single_bytes,
    "turns": send_in_turns,
}
