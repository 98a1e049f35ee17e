"""What the reads of a file should be, and whether a peer says the same of them. tests/peers runs it.

    peers.py reads READS                         describes reads of many kinds, to be appended one after the other
    peers.py corrected FILE WORDS READS          describes a sample's reads after corrections in words
    peers.py with-index FILE NEW-FILE            lets Biopython write a file's reads anew, with an index of Roche's kind
    peers.py broken FILE READ FIELD NEW-FILE     changes a byte of a read: of its name, clips, bases or qualities

    peers.py lister FILE READS LISTING           compares what the lister printed
    peers.py biopython FILE READS                compares what Biopython reads, whole and trimmed
    peers.py by-index FILE READS                 the same, each read looked up by name in an index of Roche's kind
    peers.py vsearch FILE READS WHOLE CLIPPED    compares the FASTQ that vsearch wrote, whole and clipped

READS is a text: flow and key characters in its first line, then a line for each read with its name, clips, values,
increments, bases and qualities. All are in hexadecimal digits, and "-" is none. A comparison ends with 1 at the first
difference, with a line that has file, peer, read and field.
"""

import struct
import sys
from dataclasses import dataclass


@dataclass
class Read:
    name: bytes
    clips: list  # quality left and right, adapter left and right
    values: list
    increments: bytes
    bases: bytes
    qualities: bytes

    def insert(self):
        """First and last base of the insert, from 1 on; a right clip of 0 is none."""
        ends = [right for right in self.clips[1::2] if right > 0]
        return max(1, *self.clips[::2]), min([len(self.bases)] + ends)

    def part(self, whole):
        first, last = self.insert()
        return whole[first - 1 : max(first - 1, last)]

    def cased(self):
        """The bases, in small letters outside of the insert, as both peers show them."""
        first, last = self.insert()
        kept = range(first, last + 1)
        return "".join(chr(base) if at in kept else chr(base).lower() for at, base in enumerate(self.bases, 1))


# Descriptions


def words_of(read):
    clips, values = struct.pack(">4H", *read.clips), struct.pack(f">{len(read.values)}H", *read.values)
    return [read.name, clips, values, read.increments, read.bases, read.qualities]


def write_description(path, flows, key, reads):
    with open(path, "w") as out:
        for words in [[flows, key], *map(words_of, reads)]:
            print(*[word.hex() or "-" for word in words], file=out)


def description(path):
    with open(path) as lines:
        (flows, key), *rest = [[bytes.fromhex(word.strip("-")) for word in line.split()] for line in lines]
    reads = []
    for name, clips, values, *others in rest:
        values = struct.unpack(f">{len(values) // 2}H", values)
        reads.append(Read(name, list(struct.unpack(">4H", clips)), list(values), *others))
    return flows, key, reads


FLOWS = b"TACG" * 100
KEY = b"TCAG"


def flowed(name, sequence, clips=(0, 0, 0, 0), qualities=None):
    """A read of this sequence: each base at the next flow of its character, and N at the flow of the base before."""
    flow, increments, values = 0, [], [3] * len(FLOWS)
    for at, base in enumerate(sequence):
        last = flow
        if at == 0 or base not in (sequence[at - 1], ord("N")):
            flow = FLOWS.index(base if base != ord("N") else FLOWS[0], flow) + 1
        increments.append(flow - last)
        values[flow - 1] += 97
    qualities = qualities or bytes(12 + at % 29 for at in range(len(sequence)))
    return Read(name, list(clips), values, bytes(increments), sequence, qualities)


def far(name):
    """A read whose second base comes 255 flows after the first, as far as an increment reaches."""
    values = [65535 if flow in (0, 255) else 0 for flow in range(len(FLOWS))]
    return Read(name, [0, 2, 0, 0], values, bytes([1, 255]), b"TG", bytes([0, 40]))


def reads_of_many_kinds():
    sequence = KEY + b"ATTGCCCGATNNACGGTACAGTTTACGATC"
    long = sequence * 3
    every = bytes(range(33, 127))
    return [
        flowed(b"r1", sequence),
        flowed(b"", sequence, (5, 0, 0, 0)),
        flowed(b"all-four", long, (5, 90, 15, 80)),
        flowed(b"left-of-1", sequence, (1, 0, 1, 0)),
        flowed(b"to-the-last", sequence, (0, len(sequence), 0, len(sequence))),
        flowed(b"one-base", sequence, (9, 9, 0, 0)),
        flowed(b"just-empty", sequence, (10, 9, 0, 0)),
        flowed(b"crossing", sequence, (20, 0, 0, 7)),
        flowed(b"no-bases", b""),
        flowed(b"N", b"N" + sequence),
        flowed(b"qualities", sequence + sequence, (5, 0, 0, 0), bytes([0, 1, 41, 42, 92, 93, 94, 255] * 8 + [2] * 4)),
        flowed(every, sequence, (0, 30, 6, 0)),
        flowed(b"x" * 300, sequence, (0, 30, 6, 0)),
        flowed(b"GSPIKEK01JOOYQ", sequence, (5, 31, 0, 0)),
        far(b"far"),
        flowed(b"last", long, (0, 0, 17, 0)),
    ]


# A sample's own bytes. What the library wrote is read by the peers alone.


def up8(number):
    return (number + 7) // 8 * 8


def sample(path):
    """Flow and key characters, the reads, and of each the places of name, clips, bases and qualities."""
    with open(path, "rb") as opened:
        file = opened.read()
    index, index_length, count, at, k, f = struct.unpack(">QIIHHH", file[8:30])
    reads, places = [], []
    flows, key = file[31 : 31 + f], file[31 + f : 31 + f + k]
    for _ in range(count):
        at += index_length if at == index else 0
        length, name_length, n, *clips = struct.unpack(">HHI4H", file[at : at + 16])
        data = at + length
        values = struct.unpack(f">{f}H", file[data : data + 2 * f])
        parts = [file[data + 2 * f + part * n : data + 2 * f + part * n + n] for part in range(3)]
        reads.append(Read(file[at + 16 : at + 16 + name_length], clips, list(values), *parts))
        bases = data + 2 * f + n
        places.append({"name": at + 16, "clips": at + 8, "bases": bases, "qualities": bases + n})
        at = data + up8(2 * f + 3 * n)
    return flows, key, reads, places


def corrected(path, words_path, out):
    flows, key, reads, _ = sample(path)
    with open(words_path) as lines:
        for kind, position, name, *new in map(str.split, lines):
            position = int(position)
            assert reads[position].name == name.encode(), (words_path, position)
            if kind == "clips":
                reads[position].clips = [int(clip) for clip in new]
            elif kind == "rename":
                reads[position].name = new[0].encode()
            else:
                del reads[position]
    write_description(out, flows, key, reads)


def be_strict():
    """What Biopython warns of is an error, but for clips that cross, which are allowed."""
    import warnings
    from Bio import BiopythonParserWarning

    warnings.simplefilter("error", BiopythonParserWarning)
    warnings.filterwarnings("ignore", message="Overlapping clip values")


def with_index(path, out):
    """The length of the index is to be a multiple of 8: else the library refuses it, with 8."""
    from Bio import SeqIO
    from Bio.SeqIO.SffIO import SffWriter

    be_strict()
    records = list(SeqIO.parse(path, "sff"))
    entries = sum(len(record.id) + 6 for record in records)
    manifest = "<manifest/>"
    manifest += " " * (-(16 + len(manifest) + entries) % 8)
    with open(out, "wb") as opened:
        SffWriter(opened, index=True, xml=manifest).write_file(records)


def broken(path, position, field, out):
    _, _, reads, places = sample(path)
    read, place = reads[int(position)], places[int(position)][field]
    with open(path, "rb") as opened:
        file = bytearray(opened.read())
    first, last = read.insert()
    if field == "clips":
        # The quality clip, on the left: the insert loses a base.
        assert first < last
        file[place : place + 2] = struct.pack(">H", first + 1)
    elif field == "bases":
        file[place + first - 1] = ord("A") if read.bases[first - 1] != ord("A") else ord("C")
    elif field == "qualities":
        file[place + first - 1] ^= 1
    else:
        file[place] ^= 1
    with open(out, "wb") as opened:
        opened.write(file)


# Comparisons


class Comparison:
    def __init__(self, file, peer, reads):
        self.file, self.peer, self.reads = file, peer, reads

    def fail(self, text):
        sys.exit(f"tests/peers: {self.file}, {self.peer}: {text}")

    def same(self, what, said, asked):
        if said != asked:
            self.fail(f"{what} {said!r} and not {asked!r}")

    def each(self, said):
        """Each read with what is said of it, which must be as many."""
        self.same("number of reads", len(said), len(self.reads))
        for position, (read, one) in enumerate(zip(self.reads, said)):
            where = f"read {position} ({text(read.name)})"
            yield read, one, lambda what, said, asked: self.same(f"{where}: {what}", said, asked)


def text(some):
    return some.decode("latin-1")


def lister(file, described, listing):
    flows, key, reads = description(described)
    comparison = Comparison(file, "the library's lister", reads)
    with open(listing) as lines:
        head, *said = lines.read().splitlines() or [""]
    comparison.same("first line", head, f"flows {len(flows)} key {text(key) or '-'} reads {len(reads)}")
    for position, (read, line, same) in enumerate(comparison.each(said)):
        first, last = read.insert()
        asked = [position, text(read.name) or "-", len(read.bases), first, last, text(read.part(read.bases)) or "-"]
        fields = line.split(" ")
        for what, one, other in zip(["position", "name", "bases", "first", "last", "insert"], fields, asked):
            same(what, one, str(other))
        same("number of fields", len(fields), len(asked))


def whole_record(record, read, flows, key, same):
    same("name", record.id, text(read.name))
    # Biopython hands out the number of bases that a left clip takes off: 0 and 1 are the same to it.
    notes = record.annotations
    sides = ["clip_qual_left", "clip_qual_right", "clip_adapter_left", "clip_adapter_right"]
    left, right = [max(clip, 1) - 1 for clip in read.clips[::2]], read.clips[1::2]
    same("clips", [notes[side] for side in sides], [left[0], right[0], left[1], right[1]])
    same("bases", str(record.seq), read.cased())
    same("qualities", record.letter_annotations["phred_quality"], list(read.qualities))
    same("values", list(notes["flow_values"]), read.values)
    same("increments", bytes(notes["flow_index"]), read.increments)
    same("flow characters", notes["flow_chars"], text(flows))
    same("key", notes["flow_key"], text(key))


def by_biopython(file, described, look):
    """Compares what `look` reads of the file, whole and trimmed."""
    be_strict()
    flows, key, reads = description(described)
    for kind in ["sff", "sff-trim"]:
        comparison = Comparison(file, f"Biopython ({kind})", reads)
        try:
            records = look(kind, reads)
        except Exception as error:
            comparison.fail(f"refuses it: {error!r}")
        for read, record, same in comparison.each(records):
            if kind == "sff":
                whole_record(record, read, flows, key, same)
                continue
            same("name", record.id, text(read.name))
            same("bases", str(record.seq), text(read.part(read.bases)))
            same("qualities", record.letter_annotations["phred_quality"], list(read.part(read.qualities)))


def biopython(file, described):
    from Bio import SeqIO

    by_biopython(file, described, lambda kind, reads: list(SeqIO.parse(file, kind)))


def by_index(file, described):
    from Bio import SeqIO
    from Bio.SeqIO.SffIO import ReadRocheXmlManifest

    def look(kind, reads):
        # Biopython builds an index of its own where it does not know that of the file: here it must know it.
        with open(file, "rb") as opened:
            ReadRocheXmlManifest(opened)
        records = SeqIO.index(file, kind)
        found = [records[text(read.name)] for read in reads]
        records.close()
        return found

    by_biopython(file, described, look)


def fastq(comparison, path):
    """Name, bases and qualities of each read."""
    with open(path, encoding="latin-1") as opened:
        lines = opened.read().split("\n")
    if lines.pop() != "" or len(lines) % 4 != 0:
        comparison.fail("wrote FASTQ that is cut short")
    return list(zip(lines[::4], lines[1::4], lines[3::4]))


def letters(qualities, said):
    """FASTQ has a letter for each quality up to 93, and vsearch is told to take 93 for what is above. Qualities above
    127, which vsearch 2.22.1 takes for negative ones, are not compared."""
    return "".join(said[at : at + 1] if q > 127 else chr(33 + min(q, 93)) for at, q in enumerate(qualities))


def vsearch(file, described, whole, clipped):
    _, _, reads = description(described)
    comparison = Comparison(file, "vsearch (--sff_convert)", reads)
    for read, (name, bases, qualities), same in comparison.each(fastq(comparison, whole)):
        same("name", name, "@" + text(read.name))
        same("bases", bases.upper(), text(read.bases))
        same("clips", bases, read.cased())
        same("qualities", qualities, letters(read.qualities, qualities))
    comparison = Comparison(file, "vsearch (--sff_convert --sff_clip)", reads)
    for read, (name, bases, qualities), same in comparison.each(fastq(comparison, clipped)):
        same("name", name, "@" + text(read.name))
        first, last = read.insert()
        # Where the clips cross by more than a base, vsearch 2.22.1 does not write an empty insert but all that is
        # behind the left clip, in small letters.
        if first <= last + 1:
            same("bases", bases, text(read.part(read.bases)))
            same("qualities", qualities, letters(read.part(read.qualities), qualities))


COMMANDS = {
    "reads": lambda out: write_description(out, FLOWS, KEY, reads_of_many_kinds()),
    "corrected": corrected,
    "with-index": with_index,
    "broken": broken,
    "lister": lister,
    "biopython": biopython,
    "by-index": by_index,
    "vsearch": vsearch,
}

if __name__ == "__main__":
    COMMANDS[sys.argv[1]](*sys.argv[2:])
