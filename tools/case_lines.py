#!/usr/bin/env python3
"""Writes records that the program cases reads, from the vectors of real streams.

    case_lines.py VECTORS FILE [MORE..]   FILE is crates/cases/stdin: what stands behind its line MARK is written anew
    case_lines.py VECTORS FILE all        FILE gets every record of the vectors, not only a sample

VECTORS has hevc.txt, rext.txt, forced.txt, cross.txt, h264.txt, init.txt, engine.txt (VECTORS/FORMAT.md) and the folder 02 with the files REQUESTS,
whose lines are records already (VECTORS/FORMAT-02.md). MORE is what `oracle sample` and `oracle packsample` write (oracle/README.md), records too.

A block of a stream becomes a record of the payload reader, one of the bin reader, which the program writes again, and one of the bin writer
with a room of one byte less than that list; its row extent is the greatest row that has a level. A plain block becomes the same three of the
plain entry points; and the list of every block, sampled or not, a record of the packer. A scale becomes the same as a block. A block of H.264
becomes a record of the payload reader, one of the list reader, one of the writer, whose list is the recorded one, and one for a room of a byte less; all of them are in. A slice becomes a record for each segment, and where it restarts one of byte alignment.
"""
import os
import sys

MARK = "# ==== records of the vectors, written by tools/case_lines.py"
BLOCKS = {"hevc.txt": "true streams", "rext.txt": "streams of the reference model", "forced.txt": "ordinary bytes, read with options on"}
# files of document 02, each whole
REQUESTS = ("engine.txt", "extents.txt", "cross.txt", "plain.txt", "tray.txt", "pack.txt", "h264.txt")
# of each choice of parameters and answer the shortest records, so many of each file
SAMPLE = 2
# of the slices those with so few bytes: among them several with restarts
SLICE_BYTES = 160
# what ends crates/cases/stdin: a record but for its line feed
CUT = ["# no record: a line without its line feed", "bypass payload=8000 count=3 => answer=0 value=4 state=510,8,12,0,0"]
USUAL = "2,1,0,0,0,0,0,0,0,0,0,0,0,8"


def lines_of(*path):
    with open(os.path.join(*path), encoding="ascii") as lines:
        return [line.rstrip("\n") for line in lines]


def field(key, value, usual):
    return "" if value == usual else f" {key}={value}"


def greatest_row(levels, log2):
    return max(int(level.split(":")[0]) >> log2 for level in levels.split(","))


def block_records(fields):
    """The payload reader's record, the bin reader's, and of an accepted block the bin writer's for a room of one byte less."""
    log2, parameters = int(fields[2]), ",".join(fields[2:16])
    payload, contexts, statistics, bins, answer = fields[19:24]
    skip, rdpcm, column, _, greatest, levels = fields[24:30]
    chosen = field("p", parameters, USUAL)
    lent = field("stats", statistics, "00000000")
    block = f"block payload={payload} state={','.join(fields[16:19])},0,0{chosen} ctx={contexts}{lent} => "
    read = f"list list1={bins}{chosen}{lent} => "
    if answer != "0":
        refused = f"answer={answer} memory=zero"
        return [block + refused, read + refused]
    found = f"answer=0 skip={skip} rdpcm={rdpcm} column={column} row={greatest_row(levels, log2)} greatest={greatest} levels={levels}"
    behind = f"state={','.join(fields[30:33])},0,0 changes={fields[33]} stats={fields[34]}"
    choices = field("skip", skip, "0") + field("rdpcm", rdpcm, "-1")
    short = f"write levels={levels}{choices}{chosen}{lent} room={len(bins) - 1} => answer=12"
    return [f"{block}{found} {behind}", f"{read}{found} stats={fields[34]}", short]


def sample(records):
    """The shortest records of each choice of parameters and answer, in the order of the file."""
    kinds = {}
    for place, fields in enumerate(records):
        kinds.setdefault((*fields[2:16], fields[23]), []).append((sum(map(len, fields[19:23])), place))
    kept = sorted(place for places in kinds.values() for _, place in sorted(places)[:SAMPLE])
    return [records[place] for place in kept]


def blocks(folder, every):
    for name, what in BLOCKS.items():
        records = [line.split(" ") for line in lines_of(folder, name) if line.startswith("B ")]
        yield f"# blocks of {what}: by the payload reader, by the bin reader, whose lists the writer makes again, and 12"
        for fields in records if every else sample(records):
            yield from block_records(fields)


def packs(folder):
    """Every list, packed to the bytes that are recorded. The place behind terminate is that of the last bit that is 1."""
    for name, what in BLOCKS.items():
        yield f"# lists of {what}, each packed to the recorded bytes, which are read again; 13 of those that are refused by 8"
        for fields in (line.split(" ") for line in lines_of(folder, name) if line.startswith("B ")):
            contexts, statistics, bins = fields[20:23]
            lent = field("p", ",".join(fields[2:16]), USUAL) + f" ctx={contexts}" + field("stats", statistics, "00000000")
            payload = fields[35]
            if payload == "-":
                yield f"pack list1={bins}{lent} => answer=13"
            else:
                number = int(payload, 16)
                bits = 4 * len(payload) - ((number & -number).bit_length() - 1)
                yield f"pack list1={bins}{lent} => answer=0 length={len(payload) // 2} bits={bits} payload={payload} changes={fields[33]}"


def is_plain(fields):
    """8 bits, scans 1 and 2 at 4x4 and 8x8 alone, the six options of the range extensions off, statistics of 0."""
    log2, _, scan, *_, depth = map(int, fields[2:16])
    options = [fields[2 + k] for k in (6, 7, 8, 9, 11, 12)]
    return depth == 8 and (scan == 0 or log2 < 4) and options == ["0"] * 6 and fields[21] == "00000000"


def widened(entries):
    """A list of document 01's one-byte form in two bytes an entry, the low one first."""
    return "".join(f"{e if e < 240 else e - 236:02x}{e // 240:02x}" for e in bytes.fromhex(entries))


def plain_blocks(folder, every):
    for name, what in BLOCKS.items():
        records = [line.split(" ") for line in lines_of(folder, name) if line.startswith("B ")]
        yield f"# plain blocks of {what}: the same by the plain entry points"
        for fields in filter(is_plain, records if every else sample(records)):
            for record in block_records(fields):
                yield "plain" + record.replace(f"list1={fields[22]}", f"list={widened(fields[22])}")


def scales(folder):
    yield "# scales of real streams: by the payload reader, by the list reader, and by the writer, whose list is the same, and 12"
    for line in lines_of(folder, "cross.txt"):
        fields = line.split(" ")
        if fields[0] == "X":
            _, _, component, r, o, p, payload, contexts, bins, scale, r2, o2, p2, changes = fields
            length = len(bins) // 2
            yield (
                f"cross component={component} payload={payload} state={r},{o},{p},0,0 ctx={contexts} => "
                f"answer=0 scale={scale} state={r2},{o2},{p2},0,0 changes={changes}"
            )
            yield f"crosslist component={component} list={bins} => answer=0 scale={scale}"
            yield f"crosswrite component={component} scale={scale} room={length} => answer=0 length={length} list={bins}"
            yield f"crosswrite component={component} scale={scale} room={length - 1} => answer=12"


def tables(folder, letter, record):
    """Contexts of real streams, from what they are made of: the lines of init.txt that begin with the letter."""
    for line in lines_of(folder, "init.txt"):
        fields = line.split(" ")
        if fields[0] == letter:
            _, _, q, made_of, contexts = fields
            yield f"{record.format(q=q, made_of=made_of)} => answer=0 ctx={contexts}"


def all_tables(folder):
    yield "# initial values of real streams"
    yield from tables(folder, "I", "init values={made_of} q={q}")
    yield "# H.264: contexts of real streams, from their pairs"
    yield from tables(folder, "J", "h264init q={q} pairs={made_of}")


def h264_blocks(folder):
    """Every block. Category, field and depth are no arguments: they say which contexts were lent, not how they are used."""
    yield "# H.264: blocks of real streams: by the payload reader, by the list reader, and by the writer, whose list is the same, and 12"
    for line in lines_of(folder, "h264.txt"):
        fields = line.split(" ")
        if fields[0] == "H":
            _, _, _, _, _, r, o, p, payload, contexts, bins, answer, levels, r2, o2, p2, changes = fields
            # a refused one would hand nothing back, and have no list to be written again
            if answer != "0":
                sys.exit(f"not an accepted block: {line}")
            length = len(bins) // 2
            yield (
                f"h264 payload={payload} state={r},{o},{p},0,0 ctx={contexts} => "
                f"answer=0 levels={levels} state={r2},{o2},{p2},0,0 changes={by_number(changes)}"
            )
            yield f"h264list list={bins} => answer=0 levels={levels}"
            yield f"h264write levels={levels} room={length} => answer=0 length={length} list={bins}"
            yield f"h264write levels={levels} room={length - 1} => answer=12"


def by_number(changes):
    return "-" if changes == "-" else ",".join(sorted(changes.split(","), key=lambda c: int(c.split(":")[0])))


def slices(folder, every):
    yield "# every bin of whole slices; a segment behind the first begins by a restart at the byte where alignment stands"
    payload, ended = "", ""
    for line in lines_of(folder, "engine.txt"):
        fields = line.split(" ")
        if fields[0] == "S":
            payload, ended = fields[2], ""
        elif every or len(payload) <= 2 * SLICE_BYTES:
            _, byte, r, o, p, contexts, bins, r2, o2, p2, changes = fields
            if ended:
                yield f"align payload={payload} state={ended} => answer=0 rest={byte} state={aligned(ended, int(byte))}"
            answer = f"answer=0 begun={r},{o},{p},0,0 bins={len(bins) // 4} state={r2},{o2},{p2},1,0 changes={by_number(changes)}"
            yield f"slice payload={payload}{field('state', ended, '')} contexts={contexts} ops={bins} => {answer}"
            ended = f"{r2},{o2},{p2},1,0"


def aligned(state, byte):
    r, o, _, ended, total = state.split(",")
    return f"{r},{o},{8 * byte},{ended},{total}"


def requests(folder):
    for name in REQUESTS:
        yield f"# == 02/{name}"
        for line in lines_of(folder, "02", name):
            # a line of h264.txt has two spaces where one parts its fields
            yield line if line.startswith("#") else " ".join(line.split())


def main():
    if len(sys.argv) < 3:
        sys.exit(__doc__)
    folder, name, more = sys.argv[1], sys.argv[2], sys.argv[3:]
    every = more == ["all"]
    kept = []
    if not every:
        kept = lines_of(name)
        kept = kept[: kept.index(MARK) + 1]
    written = [*requests(folder), *all_tables(folder), *slices(folder, every), *scales(folder), *h264_blocks(folder)]
    written += [*blocks(folder, every), *plain_blocks(folder, every), *packs(folder)]
    for name_of_more in more if not every else ():
        written += lines_of(name_of_more)
    with open(name, "w", encoding="ascii") as lines:
        lines.write("\n".join([*kept, *written, *([""] if every else CUT)]))
    print(sum(not line.startswith("#") for line in written), "records")


main()
