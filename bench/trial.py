"""What a trial of the program writes for each of several inputs. (`rt try --cases`)"""
import pathlib
import subprocess
import sys
import tempfile

CRATE = pathlib.Path(__file__).resolve().parents[1] / "crates" / "ravenhost"


def written(inputs, words, seconds):
    """What a trial with these words writes for each of the named inputs, in bytes."""
    with tempfile.TemporaryDirectory() as folder:
        for name, text in inputs.items():
            (pathlib.Path(folder) / name).write_bytes(text)
        told = subprocess.run(["rt", "try", "--seconds", str(seconds), "--cases", folder, "--", *words], cwd=CRATE, capture_output=True)
    found, name = {}, None
    for line in told.stdout.splitlines(keepends=True):
        if line.startswith(b"== "):
            name = line[3:].decode().strip()
            found[name] = b""
        elif line.startswith(b"case="):
            name = None
        elif name is not None:
            found[name] += line
    if len(found) < len(inputs):
        sys.exit(f"rt try --cases: {told.stdout[-4000:].decode(errors='replace')}{told.stderr[-4000:].decode(errors='replace')}")
    return found
