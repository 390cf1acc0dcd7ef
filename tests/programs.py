"""A program given bytes on its standard input in several ways. Its answer is its standard output alone, where the status is
0 and nothing stands on standard error."""

import array
import fcntl
import os
import subprocess
import tempfile
import termios
import time

PIPES = {"stdout": subprocess.PIPE, "stderr": subprocess.PIPE}


def shown(status, output, errors):
    return output if status == 0 and not errors else output + f"status {status}, {errors}\n".encode()


def given_whole(program, source):
    ran = subprocess.run([program], input=source, capture_output=True, check=False)
    return shown(ran.returncode, ran.stdout, ran.stderr)


def given_as_file(program, source):
    return left_in_file(program, source)[0]


def left_in_file(program, source):
    """The answer, and what the program has not read of a file."""
    with tempfile.TemporaryFile() as file:
        file.write(source)
        file.seek(0)
        ran = subprocess.run([program], stdin=file, capture_output=True, check=False)
        # The program's place in the file is this process's too.
        return shown(ran.returncode, ran.stdout, ran.stderr), source[os.lseek(file.fileno(), 0, os.SEEK_CUR):]


def given_in_pieces(program, source, length):
    """Each piece comes when the program has taken the one before, so that no read gets more than a piece."""
    return given_one_by_one(program, (source[at:at + length] for at in range(0, len(source), length)))


def given_one_by_one(program, pieces, **settings):
    """The same with pieces that may be made on the way; the settings are those of the new process."""
    reader, writer = os.pipe()
    with subprocess.Popen([program], stdin=reader, **PIPES, **settings) as running:
        os.close(reader)
        try:
            feed(running, writer, pieces)
        finally:
            os.close(writer)
        output, errors = running.communicate()
    return shown(running.returncode, output, errors)


def feed(running, writer, pieces):
    try:
        for piece in pieces:
            os.write(writer, piece)
            while left_in(writer) and running.poll() is None:
                time.sleep(0)
    except BrokenPipeError:
        # The program has ended before; what it wrote is compared.
        pass


def left_in(pipe):
    """How many bytes stand in a pipe."""
    count = array.array("i", [0])
    fcntl.ioctl(pipe, termios.FIONREAD, count)
    return count[0]


def at_failed_read(program, source):
    """A read fails once the source has come: the pipe is empty and open, and is not waited for."""
    reader, writer = os.pipe()
    try:
        os.set_blocking(reader, False)
        os.write(writer, source)
        ran = subprocess.run([program], stdin=reader, capture_output=True, check=False)
    finally:
        os.close(reader)
        os.close(writer)
    return shown(ran.returncode, ran.stdout, ran.stderr)


def at_failed_write(program, source):
    """Standard output takes no byte."""
    with open("/dev/full", "wb") as full:
        ran = subprocess.run([program], input=source, stdout=full, stderr=subprocess.PIPE, check=False)
    return shown(ran.returncode, b"", ran.stderr)
