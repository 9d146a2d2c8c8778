"""The program `labels`: a report on every label of .xps and .oxps files.

    command      the command line: which files, which report, the exit status
    walk         a file from its start to its end: pages, labels, what the library says of each, sums
    container    a zip file, its entries read within bounds
    package      the parts of a package: names, pieces, content types, relationships
    markup       a part's XML: encodings, no DTD, not well formed
    namespaces   what a prefix stands for; the name spaces of OpenXPS and XPS
    pages        from a package to its pages and to the Glyphs elements on them
    library      the calls of the shared object
    ties         which characters belong to which glyphs
    faults       the offending part of a refused label
    words        the causes of refusals; sentences and text for people
    text_report, tsv_report, html_report, comparison     what is printed
    picture      the SVG of a label
    progress     how far it has come, on a terminal
    limits       the sizes that are taken
    trouble      a file that cannot be read

What is proved ends at the library: unpacking, XML and what is printed are not.
"""
