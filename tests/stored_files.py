"""stored_files.py: the files of stored results. A maker hands over all that it makes, by path from the root; they are written, or held to
what stands there."""
import glob
import os

ROOT = os.path.dirname(os.path.dirname(os.path.abspath(__file__)))


def read(path):
    with open(os.path.join(ROOT, path), "rb") as f:
        return f.read()


def standing(patterns):
    """The files that stand there now, by their paths from the root."""
    paths = [os.path.relpath(p, ROOT) for pattern in patterns for p in glob.glob(os.path.join(ROOT, pattern))]
    return {path: read(path) for path in paths}


def settle(name, files, patterns, words):
    """Write the files, and remove others that the patterns find; given --check write nothing, and exit status 1 where one differs."""
    before = standing(patterns)
    wrong = sorted(path for path in set(files) | set(before) if files.get(path) != before.get(path))
    if words == ["--check"]:
        for path in wrong:
            print("differs: %s" % path)
        print("%s: %d files, %d differ" % (name, len(files), len(wrong)))
        return 1 if wrong else 0
    for path in set(before) - set(files):
        os.remove(os.path.join(ROOT, path))
    for path, data in files.items():
        os.makedirs(os.path.dirname(os.path.join(ROOT, path)), exist_ok=True)
        with open(os.path.join(ROOT, path), "wb") as out:
            out.write(data)
    return 0
