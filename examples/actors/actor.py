"""The process of a task: it writes a request to one pipe, and reads from the other what that came to."""


class Actor:
    """A task of the host, by its pipes; opening them waits until the host has opened them too."""

    def __init__(self, requests, replies):
        self.requests = open(requests, "wb", buffering=0)
        self.replies = open(replies, encoding="ascii")

    def ask(self, request):
        """What a request came to; nothing where the host has ended."""
        try:
            self.requests.write(request.encode() + b"\n")
        except BrokenPipeError:
            return ""
        return self.replies.readline().rstrip("\n")

    def returned(self, request):
        """The values that a request returned; None where it returned none, since it was refused, or the task has stopped."""
        word, *values = self.ask(request).split() or [""]
        return [int(value) for value in values] if word == "returned" else None
