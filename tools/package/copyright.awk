# Writes a Debian package's copyright file, in the machine-readable format 1.0, from NOTICE. The variable `source` names the sources.
# make-deb.sh runs it.

# The license as that format names it, of an expression of SPDX; MIT is chosen where there is a choice.
function named(license) {
    gsub(/\(|\)| OR Apache-2.0/, "", license)
    gsub(/MIT/, "Expat", license)
    gsub(/ AND /, " and ", license)
    return license
}

# Ends a paragraph of NOTICE.
function end_paragraph(    version) {
    version = ("Version" in value) ? " " value["Version"] : ""
    if ("Data" in value) tables = value["Copyright"]
    if ("Crate" in value && value["Programs"] ~ /bidi_/) {
        holders = holders "\n " value["Copyright"] " (the crate " value["Crate"] ")"
        if (value["License"] != "NOASSERTION") crates = crates "\n " value["Crate"] version ": " named(value["License"])
        else stated = stated " " value["Crate"]
    }
    if ("Part" in value) parts = parts "\n " value["Part"] version ": " value["License"] ", " value["Comment"]
    split("", value)
}

# Indents a text of several lines.
function add_text(line) {
    texts = texts "\n " (line == "" ? "." : line)
}

/^---- / {
    texts = texts (texts == "" ? "" : "\n\n") "License: " named($2)
    is_text = 1
    skipped = blanks = 0
    next
}
# the line after a heading is empty, and so is that before the next one
is_text && !skipped { skipped = 1; next }
is_text && /^$/ { blanks++; next }
is_text { for (; blanks > 0; blanks--) add_text(""); add_text($0); next }
/^$/ { end_paragraph() }
/^[A-Z][A-Za-z]*: / { name = $1; sub(/:$/, "", name); value[name] = substr($0, length(name) + 3) }
END {
    print "Format: https://www.debian.org/doc/packaging-manuals/copyright-format/1.0/\nUpstream-Name: bidi_edit\nSource: " source
    print "\nFiles: *\nCopyright: the authors of bidi_edit\nLicense: not-chosen"
    print "\nFiles: usr/share/bidi_edit/*\nCopyright: " tables "\nLicense: Unicode-3.0"
    print "\nFiles: usr/lib/bidi_edit/bidi_*\nCopyright: the authors of bidi_edit" holders "\nLicense: not-chosen and Expat and Unicode-3.0"
    print "Comment: These crates of the toolchain are linked into the programs:" crates "\n No license is stated for these:" stated
    print " Of the compiler and the C library they have:" parts
    print "\nLicense: not-chosen\n No license has been chosen for bidi_edit yet; the choice is the owner's."
    print "\n" texts
}
