# shellcheck shell=sh
# Printing of names: quoted for a shell, so that they can be copied, with characters escaped that a terminal obeys or hides. For
# the scripts here, host/build.sh and tools/install.sh; host/say.c has the same in C.

# Functions in awk, which work on bytes. `told` returns a text with bytes that are not UTF-8 or hidden as octal escapes, and those
# in `others` too; `has_numbers` says whether there are any of the former. Hidden are control characters, line separators, bidi
# controls, tags and other invisible format characters, except the two joiners, which Persian and Indic words need: `bound` has
# the first and the last code of each range. 047 is a quote, 134 a backslash.
# shellcheck disable=SC2016
telling='
    BEGIN {
        for (i = 1; i < 256; i++) value[sprintf("%c", i)] = i
        bounds = split("0 31 127 159 173 173 1564 1564 6158 6158 8203 8203 8206 8207 8232 8238 8288 8303 65279 65279 65529 65531 " \
            "78896 78911 113824 113827 119155 119162 917504 921599", bound)
    }
    function is_hidden(code,    i) {
        for (i = 1; i < bounds; i += 2) if (code >= bound[i] + 0 && code <= bound[i + 1] + 0) return 1
        return 0
    }
    # Returns the length in bytes of the character at a position and sets `code`; returns 0 if none begins there.
    function width_at(text, at,    first, width, i, byte) {
        code = first = value[substr(text, at, 1)]
        if (first < 128) return 1
        width = first < 194 || first > 244 ? 0 : first < 224 ? 2 : first < 240 ? 3 : 4
        code = first % (width == 2 ? 32 : width == 3 ? 16 : 8)
        for (i = 1; i < width; i++) {
            byte = value[substr(text, at + i, 1)] + 0
            if (byte < 128 || byte > 191) return 0
            code = code * 64 + byte - 128
        }
        return (width == 3 && (code < 2048 || code >= 55296 && code < 57344)) || (width == 4 && (code < 65536 || code > 1114111)) ? 0 : width
    }
    function told(text, others,    at, width, is_numbered, i, byte, result) {
        has_numbers = 0
        for (at = 1; at <= length(text); at += width) {
            width = width_at(text, at)
            is_numbered = !width || is_hidden(code)
            has_numbers = has_numbers || is_numbered
            if (!width) width = 1
            for (i = at; i < at + width; i++) {
                byte = substr(text, i, 1)
                result = result (is_numbered || index(others, byte) ? sprintf("\134%03o", value[byte]) : byte)
            }
        }
        return result
    }'

# Whether a shell may take a letter of the name for more than a letter.
needs_quotes() { # NAME
    case $1 in *[!A-Za-z0-9_./+,@%:=-]*) ;; *) return 1 ;; esac
}

# Prints a name: as it is, in quotes, or, with hidden bytes, in the form $'..'.
shown() { # NAME
    if ! needs_quotes "$1"; then
        printf '%s' "$1"
        return
    fi
    LC_ALL=C awk "$telling"'
        BEGIN {
            numbered = told(ARGV[1], "\047\134")
            if (has_numbers) {
                printf "$\047%s\047", numbered
            } else {
                gsub(/\047/, "\047\134\047\047", ARGV[1])
                printf "\047%s\047", ARGV[1]
            }
            exit
        }' "$1"
}
