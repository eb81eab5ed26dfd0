#!/usr/bin/env python3
"""lecture.py [--check]: writes the parts of docs/LECTURE.md that the page has too: the introduction, the plan and the questions. They come from page/lecture.json.

With --check it changes nothing, and the status is 1 if docs/LECTURE.md has other parts.
"""
import json
import os
import re
import sys

TOP = os.path.dirname(os.path.dirname(os.path.abspath(__file__)))
PAGE, PLACE = os.path.join(TOP, "docs", "LECTURE.md"), os.path.join(TOP, "page", "lecture.json")


def named(step):
    """The name of a step's script; the script itself stands below a question that has one of its own."""
    return f"`{step['example']}`" if step.get("example") else "of its own" if step.get("script") else ""


def introduction(steps):
    return "\n\n".join(text for step in steps if step.get("introduction") for text in step["text"])


def introduced(steps):
    """The row of the plan for the steps of the introduction."""
    parts = [step for step in steps if step.get("introduction")]
    scripts = list(dict.fromkeys(named(step) for step in parts))
    return f"| {parts[0]['minutes'].split('-')[0]}-{parts[-1]['minutes'].split('-')[1]} | The Hurd in ten minutes | {', '.join(scripts)} | |"


def first_sentence(text):
    return re.match(r"(.*?[.?!])(?: |$)", text)[1]


def plan(steps):
    rows = ["| minutes | what | script | the question to vote on |", "|---|---|---|---|"]
    for number, step in enumerate(steps):
        if step.get("introduction"):
            rows += [] if steps[number - 1].get("introduction") else [introduced(steps)]
        elif re.match(r"\d", step["minutes"]):
            rows.append(f"| {step['minutes']} | {step['title']} | {named(step)} | {step['question']} (*{first_sentence(step['answer'])}*) |")
    return "\n".join(rows)


def question(step):
    script = f" (`{step['example']}`)" if step.get("example") else ""
    below = f"\n\n```\n{step['script'].rstrip()}\n```\n" if step.get("script") else ""
    return f"**{step['title']}**{script}. {' '.join(step['text'])} *{step['question']}*{below}\n\n*Usual wrong answer*: {step['wrong']} **Answer**: {step['answer']}"


def questions(steps):
    return "\n\n".join(question(step) for step in steps if step["minutes"] == "homework")


def replaced(page, begin, end, text):
    """The page with this text between two lines."""
    before, after = page.index(begin) + len(begin), page.index(end)
    return page[:before] + "\n\n" + text + "\n\n" + page[after:]


def main():
    with open(PLACE, encoding="utf-8") as file:
        steps = json.load(file)["steps"]
    with open(PAGE, encoding="utf-8") as file:
        page = file.read()
    made = replaced(page, "## The Hurd in ten minutes", "## The plan", introduction(steps))
    made = replaced(made, "## The plan", "Two traps for those who are fast.", plan(steps))
    made = replaced(made, "## Ten questions", "The outputs of all are stored", questions(steps))
    if "--check" not in sys.argv[1:]:
        with open(PAGE, "w", encoding="utf-8") as file:
            file.write(made)
    elif made != page:
        sys.exit("lecture: docs/LECTURE.md is not that of page/lecture.json: tools/lecture.py writes it")


main()
