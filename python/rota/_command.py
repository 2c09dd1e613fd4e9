"""The command ``rota``, for what the library does not have."""
import os
import subprocess


def draw(text: str) -> str:
    """The picture of the rota in a text."""
    command = os.environ.get("ROTA_COMMAND") or "rota"
    try:
        done = subprocess.run([command, "draw", "-"], input=text.encode("ascii"), stdout=subprocess.PIPE, stderr=subprocess.PIPE, check=False)
    except OSError as error:
        raise OSError(error.errno, f"the command rota can't be run: {error.strerror}; ROTA_COMMAND may be set to its path", command) from error
    if done.returncode != 0:
        raise OSError(f"{command} draw ended with status {done.returncode}: {done.stderr.decode('utf-8', 'replace').strip()}")
    return done.stdout.decode("utf-8")
