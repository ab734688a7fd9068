"""Writes the files of a program crate that runs samples."""
import pathlib


def fill_crate(folder, samples):
    """Writes data/, args (the file names, in order) and stdout. A sample is a file name, the file's bytes, and the lines that the
    program must print after the name."""
    crate = pathlib.Path(folder)
    data = crate / "data"
    data.mkdir(exist_ok=True)
    for old in data.iterdir():
        old.unlink()
    names, lines = [], []
    for name, content, report in samples:
        assert name not in names
        names.append(name)
        (data / name).write_bytes(content)
        lines += [name, *report]
    (crate / "args").write_text("\n".join(names) + "\n")
    (crate / "stdout").write_text("\n".join(lines) + "\n")
