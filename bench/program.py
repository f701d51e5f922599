"""The program that a measurement tries: the one that INTERMIT names, else that of the repository's sources."""
import os
import subprocess

TOP = os.path.dirname(os.path.dirname(os.path.abspath(__file__)))


def path():
    named = os.environ.get("INTERMIT")
    if named:
        return os.path.abspath(named)
    return subprocess.run([f"{TOP}/tools/program"], check=True, capture_output=True, text=True).stdout.strip()
