# The frames of a session, byte by byte: how a Request is written, and what a Reply says. To be sourced; it needs LC_ALL=C.
# shellcheck shell=sh
#
# A frame is a kind byte, the payload's length in four bytes, the highest first, and the payload: a message of Protocol Buffers.

# byte N: one byte
byte() {
    printf "\\$(printf '%03o' "$1")"
}

# number FIELD N: a field that is a number below 128: its tag with wire type 0, and the number
number() {
    byte $(($1 * 8))
    byte "$2"
}

# text FIELD TEXT: a field that is a text of fewer than 128 bytes: its tag with wire type 2, its length, and the text
text() {
    byte $(($1 * 8 + 2))
    byte ${#2}
    printf '%s' "$2"
}

# pair FIELD NAME VALUE: a field that is a message: the name in its field 1, the value in its field 2
pair() {
    byte $(($1 * 8 + 2))
    byte $((${#2} + ${#3} + 4))
    text 1 "$2"
    text 2 "$3"
}

# frame KIND FILE: the frame of this kind around the payload in a file of fewer than 65,536 bytes
frame() {
    size=$(($(wc -c < "$2")))
    byte "$1"
    byte 0
    byte 0
    byte $((size / 256))
    byte $((size % 256))
    cat "$2"
}

# hex FILE: the bytes of a file
hex() {
    od -An -v -tx1 "$1"
}

# reply_in_words FILE: the fields of a Reply frame, one on a line; it fails where the file is no such frame
reply_in_words() {
    od -An -v -tu1 "$1" | awk '
    function varint(    n, scale) {
        scale = 1
        while (at < count && bytes[at] >= 128) {
            n += (bytes[at++] - 128) * scale
            scale *= 128
        }
        return n + bytes[at++] * scale
    }
    function text(end,    shown) {
        while (at < end) shown = shown sprintf("%c", bytes[at++])
        return shown
    }
    # the fields up to an offset, by their names in the order of their numbers
    function show(end, list, before,    names, tag, name, value) {
        split(list, names, " ")
        while (at < end) {
            tag = varint()
            name = names[int(tag / 8)]
            value = varint()
            if (name in within) {
                show(at + value, within[name], before name " ")
                continue
            }
            if (name == "faults") {
                show_faults(at + value, before)
                continue
            }
            if (tag % 8 == 2) value = text(at + value)
            # the reasons of a reply are those of its kind, which comes first
            if (before name == "kind" && value in reasons) name_values("reason", 1, reasons[value])
            if ((before name, value) in words) value = words[before name, value]
            print before name ": " value
        }
    }
    # packed numbers: a kind of fault times 256, and a code
    function show_faults(end, before,    fault, kind) {
        while (at < end) {
            fault = varint()
            kind = int(fault / 256)
            print before "fault: " ((("fault", kind) in words) ? words["fault", kind] : kind) " " (fault % 256)
        }
    }
    function name_values(name, first, list,    values, i, n) {
        n = split(list, values, " ")
        for (i = 1; i <= n; i++) words[name, first + i - 1] = values[i]
    }
    { for (i = 1; i <= NF; i++) bytes[count++] = $i }
    END {
        size = ((bytes[1] * 256 + bytes[2]) * 256 + bytes[3]) * 256 + bytes[4]
        if (count < 5 || bytes[0] != 2 || count != size + 5) exit 1
        name_values("kind", 1, "BadRequest NotRemotable InputMissing InputChanged SourceFault TooLarge AllFailed Cancelled PlaceFault JournalFull NoMemory Blocked InPlace")
        name_values("origin", 1, "local remote cache")
        reasons[1] = "CutShort TooLong BadKind BadMessage UnknownVersion WrongRoot BadField Trailing NotBuilt"
        reasons[2] = "word path"
        reasons[6] = "ScanFiles FileBytes ScanBytes ListFiles ListBytes"
        reasons[8] = "Asked Ended OtherBytes Lost"
        reasons[13] = "word path limit"
        name_values("ends attempt", 1, "local remote")
        name_values("fault", 1, "status link http2 compressed too-large no-status bad-message cut blob-refused")
        within["ends"] = "attempt cause value path first second faults bytes"
        within["first"] = within["second"] = "kind size mark_above mark_below digest executable"
        at = 5
        # a Done leaves its kind out, as every number that is 0
        if (bytes[at] != 8) print "kind: Done"
        show(count, "kind exit stdout stderr origin receipt placed reason value path first second ends", "")
    }'
}
