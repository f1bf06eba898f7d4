# What a source gives, read without ./sheet; for tests/pages.sh and tests/sheet.sh.

# plain SOURCE: the plan's text of a source whose quotes are all closed: text in quotes in the digits of its bytes, and no remarks and no blanks.
plain() {
    tr -d '\r' <"$1" | LC_ALL=C awk '
        BEGIN { for (byte = 1; byte < 256; byte++) digits[sprintf("%c", byte)] = sprintf("%02x", byte) }
        {
            given = ""
            quoted = 0
            for (place = 1; place <= length($0); place++) {
                character = substr($0, place, 1)
                if (character == "\"") quoted = !quoted
                else if (quoted) given = given digits[character]
                else if (character == "#") break
                else if (character != " " && character != "\t") given = given tolower(character)
            }
            if (given != "") print given
        }'
}
