"""What holds under `--assume-meta`, which reads a file without its metas."""

from program import want
from recoveries import compare_under
from results import info_of, read

PAGE_SIZES = [2**power for power in range(10, 14)]
METAS = 2


def assumed(page_size, root):
    return ["--assume-meta", f"{page_size}:{root}"]


def compare_with_slot(file, info):
    """If the trees are sound under the meta in use, they are under one that is assumed with its page size and root
    page, which lists the same. So they are if the file's own metas are overwritten."""
    words = assumed(info["page size"], info["root"])
    compare_under(file, words)
    if not file.run("check", "--meta", info["meta"]).is_ok():
        return
    want(file.text("check", *words) == b"OK\n", *words, "finds something in sound trees")
    listing = file.text("list", "--meta", info["meta"])
    want(file.text("list", *words) == listing, *words, "lists other things than --meta")
    gone = file.copy("gone.db")
    zeros = bytes(METAS * info["page size"])
    with open(gone, "wb") as out:
        out.write(zeros + read(file.path)[len(zeros) :])
    want(file.program.text("list", gone, *words) == listing, *words, "looks at the metas")


def compare_assumed(file):
    """What is lost and found under a meta that is assumed: that of the file, if it has one, and any."""
    if file.run("info").is_ok():
        compare_with_slot(file, info_of(file))
    compare_under(file, assumed(file.draw.choice(PAGE_SIZES), file.draw.randrange(12)))
