"""The sizes that are taken. Each is said where it is passed, and all but NOTES in --help."""

MIB = 1024 * 1024

FILE_ENTRIES = 65_535           # entries of a zip
DIRECTORY_BYTES = 16 * MIB      # a zip's directory of its entries
PART_BYTES = 64 * MIB           # a part, unpacked
PACKAGE_BYTES = 512 * MIB       # all parts of a package that are read, unpacked
RATIO = 200                     # a part above RATIO_FROM bytes, unpacked to packed
RATIO_FROM = 16 * MIB
REFERENCES = 65_535             # references of a sequence to documents, of a document to pages
NAME = 1_000                    # characters of a part's name, and of a reference to one
DEPTH = 1_000                   # elements inside one another
LABELS = 500_000                # labels of a package
MEMORY_BYTES = 3072 * MIB       # the program's own memory
NOTES = 20                      # notes on a package
DRAWN = 200_000                 # ties that an HTML page draws
DRAWN_OF_LABEL = 512            # .. of one label

SENTENCES = f"""\
A file may have {FILE_ENTRIES:,} entries with a directory of {DIRECTORY_BYTES // MIB} MiB; a part may have {PART_BYTES // MIB} MiB
unpacked, all parts that are read {PACKAGE_BYTES // MIB} MiB, a part above {RATIO_FROM // MIB} MiB {RATIO} times its packed size;
a sequence or a document {REFERENCES:,} references, a package {LABELS:,} labels, a part
{DEPTH:,} elements inside one another, its name {NAME:,} characters. A page of --html draws
{DRAWN:,} ties, {DRAWN_OF_LABEL} of each label. The program takes at most {MEMORY_BYTES // MIB:,} MiB of memory."""
