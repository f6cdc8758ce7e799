"""What the makers of the lists share: a generator of numbers, and the oracle, a program over hickory-proto 0.26.3 that answers
requests line by line."""
import subprocess


class Random:
    """A linear congruential generator (Knuth's MMIX)."""

    def __init__(self, seed):
        self.state = seed

    def below(self, n):
        self.state = (self.state * 6364136223846793005 + 1442695040888963407) % 2**64
        return (self.state >> 33) % n

    def pick(self, items):
        return items[self.below(len(items))]


class Oracle:
    def __init__(self, path):
        self.path = path

    def ask(self, requests):
        """The answers to the requests, in their order."""
        said = subprocess.run([self.path], input="\n".join(requests) + "\n", capture_output=True, text=True, check=True)
        answers = said.stdout.split("\n")[:-1]
        assert len(answers) == len(requests), (len(answers), len(requests))
        return answers


def hexed(data):
    return data.hex() or "-"
