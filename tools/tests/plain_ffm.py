#!/usr/bin/env python3
"""Stands for ffm in the tests of the tools, so that they need no kit: `run` by tools/plain_run.py, and a refusal of the
first line of a script whose first word is no word of scripts."""

import json
import pathlib
import sys

sys.path.insert(0, str(pathlib.Path(__file__).resolve().parents[1]))
import plain_run
from plain_script import LOCAL_LINES, MAP_LINES, is_label, words_of
from plain_machine import CALLS

WORDS = {*CALLS, *LOCAL_LINES, *MAP_LINES, "end", "sfn", "return"}


def refusal(scenario):
    for number, script in enumerate(json.loads(pathlib.Path(scenario).read_text()).get("scripts", [])):
        for k, words in enumerate(map(words_of, script["lines"])):
            if words and not is_label(words) and words[0] not in WORDS:
                return f"refused 19 ScriptSyntax scenario /scripts/{number}/lines/{k}\n"
    return None


def main():
    word, system, scenario = sys.argv[1:]
    assert word == "run"
    refused = refusal(scenario)
    status, text = (1, refused) if refused else plain_run.answer_of_files(system, scenario)
    sys.stdout.write(text)
    sys.exit(status)


if __name__ == "__main__":
    main()
