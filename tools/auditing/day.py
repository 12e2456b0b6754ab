"""The answers of the worked day: those of the shell's example, crates/book_shell/stdout, to which the gate holds the program."""
import re

from sources import CRATES, Wrong

EXAMPLE = CRATES / "book_shell" / "stdout"


def told(said):
    """The calls of an example, each with its answer."""
    return re.findall(r"^> (.+)\n([^>#\n].*)$", said, re.M)


def answer_to(call, rest):
    """The answer to the next such call of an example. Only one that makes a fresh book lies in another book than the one before it."""
    for other, answer in rest:
        if other == call:
            return answer
        if other.startswith("keys ") and not call.startswith("keys "):
            break
    raise Wrong(f"the shell's example has no `{call}` there")


def with_answers(text, said):
    """A text in which {answer} is the answer to the first piece of code in its line. Lines go through an example in its order."""
    rest = iter(told(said))
    return re.sub(r"^([^`\n]*`([^`\n]+)`.*)\{answer\}", lambda m: m[1] + answer_to(m[2], rest), text, flags=re.M)
