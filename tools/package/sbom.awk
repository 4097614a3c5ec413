# Writes an SPDX 2.3 document in JSON, from NOTICE and then crates.txt. The variables are version, created, namespace, and programs with
# lines `NAME PATH SUM`. make-sbom.sh runs it.

function quoted(text) {
    gsub(/[\\"]/, "\\\\&", text)
    return "\"" text "\""
}

function id_of(kind, name) {
    gsub(/[^A-Za-z0-9.]/, "-", name)
    return "SPDXRef-" kind "-" name
}

function field(name, value) {
    return ",\n      " quoted(name) ": " quoted(value)
}

# Adds a package; FIELDS are more fields of it.
function add(id, name, its_version, license, holders, fields) {
    packages = packages (packages == "" ? "" : ",") "\n    {\n      " quoted("SPDXID") ": " quoted(id) field("name", name) \
        field("versionInfo", its_version) field("downloadLocation", "NOASSERTION") ",\n      \"filesAnalyzed\": false" \
        field("licenseConcluded", license == "NONE" ? "NOASSERTION" : license) field("licenseDeclared", license) \
        field("copyrightText", holders) fields "\n    }"
}

function relate(id, kind, other) {
    relations = relations (relations == "" ? "" : ",") "\n    {\"spdxElementId\": " quoted(id) ", \"relationshipType\": " quoted(kind) \
        ", \"relatedSpdxElement\": " quoted(other) "}"
}

# The lines of a paragraph of NOTICE, `NAME: VALUE`, go to `value`.
function take_line(line,    name) {
    name = line
    sub(/:.*/, "", name)
    sub(/^[^:]*: */, "", line)
    value[name] = line
}

# Keeps what the paragraph told.
function end_paragraph(    name) {
    if ("Toolchain" in value) toolchain = value["Toolchain"]
    if ("Crate" in value) {
        name = value["Crate"]
        theirs[++count] = name
        needs[name] = value["Needs"] (name == "std" ? "" : " std")
        told[name] = ("Version" in value) ? value["Version"] : toolchain
        license[name] = value["License"]
        holder[name] = value["Copyright"]
        origin[name] = value["Origin"]
    }
    if ("Data" in value) add(id_of("data", "tables"), value["Data"], value["Version"], value["License"], value["Copyright"], field("comment", value["Comment"]))
    if ("Part" in value) {
        parts[++part_count] = id_of("part", value["Part"])
        add(parts[part_count], value["Part"], value["Version"], value["License"], value["Copyright"], field("comment", value["Comment"]))
    }
    split("", value)
}

# Relates a program to a crate and to all below it.
function link(program, name,    below, number, i) {
    if ((program, name) in is_linked) return
    is_linked[program, name] = 1
    relate(id_of("program", program), "STATIC_LINK", id_of("crate", name))
    is_used[name] = 1
    number = split(needs[name], below, " ")
    for (i = 1; i <= number; i++) link(program, below[i])
}

# Adds a crate that a program has, and its relations.
function add_crate(name, is_ours,    below, number, i) {
    if (!is_used[name]) return
    if (is_ours) add(id_of("crate", name), name, version, "NONE", "NOASSERTION", field("comment", "a crate of this repository"))
    else add(id_of("crate", name), name, told[name], license[name], holder[name], field("sourceInfo", origin[name]))
    number = split(needs[name], below, " ")
    for (i = 1; i <= number; i++) relate(id_of("crate", name), "DEPENDS_ON", id_of("crate", below[i]))
}

# Adds a program, which is a crate's or the host.
function add_program(name, path, sum,    i, comment) {
    comment = name == "host" ? "written in C, in host/; linked to the C library at its start" : "the program of the crate " name
    add(id_of("program", name), name == "host" ? "bidi-edit" : name, version, "NONE", "NOASSERTION", \
        field("packageFileName", path) ",\n      \"checksums\": [{\"algorithm\": \"SHA256\", \"checksumValue\": " quoted(sum) "}]" field("comment", comment))
    relate(id_of("package", "bidi-edit"), "CONTAINS", id_of("program", name))
    if (name == "host") return
    for (i = 1; i <= part_count; i++) relate(id_of("program", name), "STATIC_LINK", parts[i])
    link(name, name)
}

function add_programs(    lines, number, i, words) {
    number = split(programs, lines, "\n")
    for (i = 1; i <= number; i++) {
        split(lines[i], words, " ")
        add_program(words[1], words[2], words[3])
    }
}

FNR == 1 { file++ }
# after this line, NOTICE has texts
file == 1 && /^---- / { is_text = 1 }
file == 1 && /^$/ { end_paragraph() }
file == 1 && !is_text && /^[A-Z][A-Za-z]*: / { take_line($0) }
file == 2 && !/^#/ && /:/ {
    name = $1
    sub(/:.*/, "", name)
    ours[++our_count] = name
    is_our[name] = 1
    needs[name] = $0
    sub(/^[^:]*: */, "", needs[name])
    needs[name] = needs[name] " std"
}
END {
    add(id_of("package", "bidi-edit"), "bidi-edit", version, "NONE", "NOASSERTION", field("primaryPackagePurpose", "APPLICATION"))
    relate("SPDXRef-DOCUMENT", "DESCRIBES", id_of("package", "bidi-edit"))
    relate(id_of("package", "bidi-edit"), "CONTAINS", id_of("data", "tables"))
    add_programs()
    for (i = 1; i <= our_count; i++) add_crate(ours[i], 1)
    for (i = 1; i <= count; i++) add_crate(theirs[i], 0)
    printf "{\n  \"spdxVersion\": \"SPDX-2.3\",\n  \"dataLicense\": \"CC0-1.0\",\n  \"SPDXID\": \"SPDXRef-DOCUMENT\",\n"
    printf "  \"name\": %s,\n  \"documentNamespace\": %s,\n", quoted("bidi-edit-" version), quoted(namespace)
    printf "  \"creationInfo\": {\"created\": %s, \"creators\": [\"Tool: make-sbom.sh\"]},\n", quoted(created)
    printf "  \"packages\": [%s\n  ],\n  \"relationships\": [%s\n  ]\n}\n", packages, relations
}
