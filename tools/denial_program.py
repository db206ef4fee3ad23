"""Sessions that are put to `dns_measure verdicts`, for `tools/zones` and `tools/verdicts`."""
import concurrent.futures
import os
import subprocess
import sys
import tempfile

TOP = os.path.realpath(os.path.join(os.path.dirname(os.path.realpath(__file__)), ".."))
CRATE = os.path.join(TOP, "crates", "dns_measure")


def run_program(program, sessions):
    def run(text):
        return subprocess.run([program, "verdicts"], input=text.encode(), capture_output=True, check=False).stdout.decode()
    with concurrent.futures.ThreadPoolExecutor(os.cpu_count()) as pool:
        return list(pool.map(run, sessions))


def run_tried(sessions):
    """What the program writes, built by `rt try` and not proved."""
    with tempfile.TemporaryDirectory(prefix="zones-") as folder:
        for number, text in enumerate(sessions):
            with open(os.path.join(folder, f"case-{number:06}"), "w", encoding="ascii") as file:
                file.write(text)
        ran = subprocess.run(["rt", "try", "--cases", folder, "--", "verdicts"], cwd=CRATE, capture_output=True, check=False)
    parts = ran.stdout.decode().split("== case-")[1:]
    outputs = {int(part[:6]): part.partition("\n")[2] for part in parts}
    if len(outputs) != len(sessions):
        sys.exit(f"rt try ran {len(outputs)} of {len(sessions)} sessions\n{ran.stderr.decode()[-2000:]}")
    return [outputs[number] for number in range(len(sessions))]
