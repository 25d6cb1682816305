"""A run that is asked line by line, and what the next run finds."""
from parts.rows import same
from parts.terminal import CTRL_D


def answered(run, request, reply):
    """Types a request, whose reply has to be this one."""
    run.type(request + "\n")
    same(run.line(), reply, f"the reply to {request}")


def ends_well(run):
    """Ends the input. The run has to end with status 0 and nothing more to say."""
    run.type(CTRL_D)
    same(run.rest(), "", "what was said at the end")
    same(run.status(), 0, "the status")


def finds(pair, *names):
    """The next run has to find these names in the root and no other, and the pair has to keep all rules."""
    same(pair.serve("list /"), [" ".join(("ok", str(len(names)), *sorted(names)))], "what the next run finds")
    same(pair.run("check", "image", "disk").status, 0, "the status of check")
