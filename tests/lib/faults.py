"""What the program says of a fault: a line, such as `llhls: Listen`, and maybe lines after it that explain it, each indented by two spaces."""
import re


def unexplained(said):
    """Returns the text `said` without the lines that explain a fault."""
    return re.sub(r'(?<=\n)  .*\n', '', said)
