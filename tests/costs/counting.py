"""How many instructions a program takes: under callgrind, or, where the processor is no x86-64, one by one under the kit's emulator."""
import os
import platform
import re
import subprocess
import tempfile


def counted(program, stdin):
    """What the program prints on this standard input, and how many instructions it took."""
    if platform.machine() == "x86_64":
        run = subprocess.run(["valgrind", "--tool=callgrind", "--callgrind-out-file=/dev/null", program], input=stdin, capture_output=True, check=True)
        return run.stdout, int(re.search(rb"Collected : (\d+)", run.stderr)[1])
    runnable = os.path.join(os.path.dirname(os.path.dirname(os.path.abspath(__file__))), "runnable")
    script = subprocess.run([runnable, program], stdout=subprocess.PIPE, check=True).stdout.decode().strip()
    with tempfile.TemporaryDirectory() as work:
        trace = os.path.join(work, "trace")
        os.mkfifo(trace)
        count = subprocess.Popen(["grep", "-c", "^Trace", trace], stdout=subprocess.PIPE)
        env = {**os.environ, "QEMU_ONE_INSN_PER_TB": "1", "QEMU_LOG": "exec,nochain", "QEMU_LOG_FILENAME": trace}
        run = subprocess.run([script], input=stdin, env=env, capture_output=True, check=True)
        return run.stdout, int(count.communicate()[0])
