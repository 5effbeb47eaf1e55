"""A desk at a terminal, for the tests that type: its answers, its prompts, and what it says beside them."""
import os
import pty
import select
import subprocess
import termios
import time


class Terminal:
    """What the desk writes to the terminal is the answer; the prompt comes after it, by standard error, which is a pipe here."""
    def __init__(self, desk, *words):
        self.fd, slave = pty.openpty()
        mode = termios.tcgetattr(slave)
        mode[1] &= ~termios.OPOST
        mode[3] &= ~termios.ECHO
        termios.tcsetattr(slave, termios.TCSANOW, mode)
        self.p = subprocess.Popen([desk, *words], stdin=slave, stdout=slave, stderr=subprocess.PIPE, start_new_session=True)
        os.close(slave)
        self.wait()

    def wait(self):
        """What is answered until the next prompt, or the end."""
        got, beside, until = b'', b'', time.time() + 10
        while time.time() < until:
            prompted = beside.endswith(b'> ')
            ready = select.select([self.fd, self.p.stderr], [], [], 0.05 if prompted else 0.1)[0]
            if prompted and self.fd not in ready:
                break
            if self.fd in ready:
                try:
                    got += os.read(self.fd, 4096)
                except OSError:
                    break
            if self.p.stderr in ready and not prompted:
                more = os.read(self.p.stderr.fileno(), 4096)
                if not more:
                    until = min(until, time.time() + 0.3)
                beside += more
        *lines, self.prompt = beside.decode(errors='replace').split('\n')
        self.beside = ''.join(line + '\n' for line in lines)
        return got.decode(errors='replace')

    def say(self, line):
        """Types a line, and gives the answer."""
        os.write(self.fd, line.encode() + b'\n')
        return self.wait()

    def status(self):
        try:
            return self.p.wait(10)
        except subprocess.TimeoutExpired:
            self.p.kill()
            return 'it goes on'
        finally:
            self.p.stderr.close()
            os.close(self.fd)
