"""What a program answers to a source, for the scripts beside this one. A program that does not end has no answer."""
import subprocess


def finished(words, seconds, **how):
    """A program that has ended, with its output and its standard error; else None for its status, and what it lacks."""
    try:
        return subprocess.run(words, stdin=subprocess.DEVNULL, capture_output=True, timeout=seconds, **how)
    except subprocess.TimeoutExpired as late:
        return subprocess.CompletedProcess(words, None, f"no end within {seconds} seconds".encode(), late.stderr or b"")


def answer(program, text, room, seconds):
    """The exit status of a program on a source, and what it prints."""
    file = room / f"{id(text)}.abs"
    file.write_bytes(text.encode())
    done = finished([program, file], seconds)
    file.unlink()
    return done.returncode, done.stdout.decode("utf-8", "backslashreplace")
