"""The commands and the answers of `weslc_session`."""
import json
import subprocess

OPTIONS = ["features", "default_feature", "keep", "mode", "max_modules", "max_steps"]
NEEDS = {"set_module": ["path", "text"], "remove_module": ["path"], "set_feature": ["name", "feature"]}


def command(options, name, *given):
    """A call as a command; what `set_options` leaves out stands as in the options."""
    if name == "set_options":
        return {name: {**options, **given[0]}}
    return {name: dict(zip(NEEDS.get(name, []), given))}


def line_of(error):
    """An error as `weslc` prints it."""
    span = "..".join(map(str, error["span"])) if "span" in error else "-"
    return f"error: {error['kind']} {error.get('module', '-')} {error.get('declaration', '-')} {span} {error.get('subject', '-')}"


def answer_of(line):
    """None, a number, a truth value, `["ok", TEXT]` or `["error", LINE]`."""
    answer = json.loads(line)
    if "error" in answer:
        return ["error", line_of(answer["error"])]
    if "text" in answer:
        return ["ok", answer["text"]]
    (name, value), = answer.items()
    return None if name == "ok" else value


def played(program, commands):
    """The lines that a session answers to commands."""
    lines = "".join(json.dumps(it) + "\n" for it in commands)
    ran = subprocess.run([program], input=lines, capture_output=True, text=True, check=True)
    return ran.stdout.splitlines()
