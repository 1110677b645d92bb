#!/usr/bin/env python3
"""Writes Hermes's files for Sublime Text into a folder: the grammar, comments and indentation as property lists.

    editors/textmate/sublime.py FOLDER
"""
import json
import os
import plistlib
import sys

HERE = os.path.dirname(os.path.realpath(__file__))


def read(name):
    with open(os.path.join(HERE, name), encoding="utf-8") as file:
        return json.load(file)


def main(words):
    if len(words) != 1:
        print(__doc__, end="", file=sys.stderr)
        return 2
    configuration = read("language-configuration.json")
    comment = [{"name": "TM_COMMENT_START", "value": configuration["comments"]["lineComment"] + " "}]
    indentation = configuration["indentationRules"]
    files = {
        "Hermes.tmLanguage": read("hermes.tmLanguage.json"),
        "Comments.tmPreferences": {"scope": "source.hermes", "settings": {"shellVariables": comment}},
        "Indentation.tmPreferences": {"scope": "source.hermes", "settings": indentation},
    }
    os.makedirs(words[0], exist_ok=True)
    for name, content in files.items():
        with open(os.path.join(words[0], name), "wb") as file:
            plistlib.dump(content, file)
    return 0


if __name__ == "__main__":
    sys.exit(main(sys.argv[1:]))
