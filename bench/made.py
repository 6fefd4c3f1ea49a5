"""Writing what is made here: one file for each function of a list."""
import argparse
import pathlib


def write_each(makers, folder, kind, ending, scale):
    """Writes what each function makes, by a count that it scales, and answers their names and paths."""
    paths = {}
    for maker in makers:
        name = maker.__name__.replace("_", "-")
        paths[name] = pathlib.Path(folder) / f"{kind}-{name}-{scale:g}.{ending}"
        made = maker(lambda count: max(1, int(count * scale)))
        paths[name].write_bytes(made if isinstance(made, bytes) else made.encode())
    return paths


def main(description, write):
    """The command of a module whose `write` takes a folder and a scale."""
    words = argparse.ArgumentParser(description=description, formatter_class=argparse.RawDescriptionHelpFormatter)
    words.add_argument("folder")
    words.add_argument("scale", type=float, nargs="?", default=1)
    asked = words.parse_args()
    pathlib.Path(asked.folder).mkdir(parents=True, exist_ok=True)
    for path in write(asked.folder, asked.scale).values():
        print(f"{path}: {path.stat().st_size} bytes")
