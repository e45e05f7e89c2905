"""Plants a mistake in a copy: plant.py MISTAKE CRATES."""

import sys


def main():
    path, crates = sys.argv[1:]
    crate, file, old, texts = None, None, None, {}
    for line in open(path, encoding="utf-8"):
        key, _, text = line.rstrip("\n").partition(": ")
        if key == "crate":
            crate = text
        elif key == "file":
            file = f"{crates}/{crate}/{text}"
            texts[file] = open(file, encoding="utf-8").read()
        elif key == "old":
            old = text
        elif key == "new":
            if texts[file].count(old) != 1:
                sys.exit(f"{path}: the old text stands {texts[file].count(old)} times in {file}")
            texts[file] = texts[file].replace(old, text)
    for file, text in texts.items():
        open(file, "w", encoding="utf-8").write(text)


main()
