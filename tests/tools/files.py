"""Files to be packed, and the files that a season was taken apart into."""


def kept(folder, files):
    """The paths of new files of a folder that hold these bytes, in this order."""
    paths = [folder / name for name in files]
    for path, content in zip(paths, files.values()):
        path.write_bytes(content)
    return [str(path) for path in paths]


def contents(folder):
    return {path.name: path.read_bytes() for path in sorted(folder.iterdir())}
