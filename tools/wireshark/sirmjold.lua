-- Shows the payloads of the data stream between console and chamber in Wireshark and tshark.
--
--     tshark -X lua_script:tools/wireshark/sirmjold.lua -r FILE
--
-- or copied into Wireshark's folder of personal Lua plugins (Help, About, Folders).
--
--   payload   | 4D494449 | command | command | .. |
--   command   | code 8 | length in words 8 | command bytes 16 | words, 32 each |
--   message   | type 4 | .. |, 1 to 4 words by its type
--
-- A UDP payload is taken by its signature, whatever its port. Where another protocol claims the port,
-- Decode As (udp.port) gives it to this one, and then payloads without the signature are shown too.
-- What is read, passed over and marked is what the library reads, passes over and refuses.

local sirmjold = Proto("sirmjold", "Sirmjold")

local SIGNATURE = 0x4D494449
local UMP_DATA, REQUEST, ERROR = 0xFF, 0x80, 0x81
local MOST_WORDS = 64 -- of a data command, in writing
local MOST_SHOWN = 6 -- commands in the Info column

local COMMANDS = { [UMP_DATA] = "UMP Data", [REQUEST] = "Retransmit Request", [ERROR] = "Retransmit Error" }
local REASONS = { [0] = "unknown", [1] = "NOT_IN_BUFFER" }

-- M2-104-UM: the words of a message by its type, the types' names, and those that have a group.
local WORDS = { [0] = 1, 1, 1, 2, 2, 4, 1, 1, 2, 2, 2, 3, 3, 4, 4, 4 }
local TYPES = {
    [0] = "Utility", "System Real Time and System Common", "MIDI 1.0 Channel Voice", "Data, 64 bits", "MIDI 2.0 Channel Voice", "Data, 128 bits",
    "reserved, 32 bits", "reserved, 32 bits", "reserved, 64 bits", "reserved, 64 bits", "reserved, 64 bits",
    "reserved, 96 bits", "reserved, 96 bits", "Flex Data", "reserved, 128 bits", "UMP Stream",
}
local GROUPED = { [1] = true, [2] = true, [3] = true, [4] = true, [5] = true, [0xD] = true }
local MIDI_1, MIDI_2 = 2, 4
local NOTES = { [8] = "Note Off", [9] = "Note On" }

local field = {
    signature = ProtoField.uint32("sirmjold.signature", "Signature", base.HEX),
    command = ProtoField.uint8("sirmjold.command", "Command", base.HEX, COMMANDS),
    words = ProtoField.uint8("sirmjold.words", "Length in words", base.DEC),
    csd1 = ProtoField.uint8("sirmjold.csd1", "First command byte", base.HEX),
    csd2 = ProtoField.uint8("sirmjold.csd2", "Second command byte", base.HEX),
    seq = ProtoField.uint16("sirmjold.seq", "Sequence number", base.DEC),
    request_seq = ProtoField.uint16("sirmjold.request.seq", "First number asked for", base.DEC),
    request_count = ProtoField.uint16("sirmjold.request.count", "Count (0: all from there on)", base.DEC),
    error_reason = ProtoField.uint8("sirmjold.error.reason", "Reason", base.HEX, REASONS),
    error_seq = ProtoField.uint16("sirmjold.error.seq", "Number", base.DEC),
    word = ProtoField.uint32("sirmjold.word", "Word", base.HEX),
    message = ProtoField.bytes("sirmjold.message", "Message"),
    type = ProtoField.uint8("sirmjold.type", "Message type", base.HEX, TYPES, 0xF0),
    group = ProtoField.uint8("sirmjold.group", "Group", base.DEC, nil, 0x0F),
    status = ProtoField.uint8("sirmjold.status", "Status", base.HEX, nil, 0xF0),
    channel = ProtoField.uint8("sirmjold.channel", "Channel", base.DEC, nil, 0x0F),
    note = ProtoField.uint8("sirmjold.note", "Note", base.DEC),
    velocity = ProtoField.uint16("sirmjold.velocity", "Velocity", base.DEC),
    rest = ProtoField.bytes("sirmjold.rest", "Bytes after the last command"),
}
sirmjold.fields = field

local function mark(name, says, group, severity)
    return ProtoExpert.new("sirmjold." .. name, says, group, severity)
end

local MALFORMED, PROTOCOL, UNDECODED = expert.group.MALFORMED, expert.group.PROTOCOL, expert.group.UNDECODED
local FAULT, WARN, REMARK = expert.severity.ERROR, expert.severity.WARN, expert.severity.NOTE
local marks = {
    no_signature = mark("no_signature", "No signature: refused with 1", MALFORMED, FAULT),
    cut_command = mark("cut_command", "Command cut by the end of the payload: reading ends here", MALFORMED, FAULT),
    cut_message = mark("cut_message", "Message cut by the end of its command: not handed on", MALFORMED, FAULT),
    no_word = mark("no_word", "Command without its word: refused with 10", MALFORMED, FAULT),
    reason = mark("reason_not_defined", "Reason that is not defined", PROTOCOL, WARN),
    long = mark("long", "Data command of over 64 words, which no sender may write", PROTOCOL, WARN),
    above_7f = mark("above_7f", "Note or velocity above 7F: held notes pass it over", PROTOCOL, WARN),
    passed_over = mark("passed_over", "Passed over in reading", PROTOCOL, REMARK),
    cut_capture = mark("cut_capture", "Cut by the capture: the rest of the payload was not recorded", UNDECODED, WARN),
}
sirmjold.experts = marks

local function counted(n)
    if n == 0 then
        return "no words"
    end
    return n == 1 and "1 word" or n .. " words"
end

-- ---- messages

-- A note's fields and text. MIDI 1.0 has the velocity in a byte, MIDI 2.0 in the upper half of the second word.
local function note(tree, bytes, kind)
    local velocity = kind == MIDI_1 and bytes(3, 1) or bytes(4, 2)
    tree:add(field.note, bytes(2, 1))
    tree:add(field.velocity, velocity)
    if kind == MIDI_1 and (bytes(2, 1):uint() > 0x7F or velocity:uint() > 0x7F) then
        tree:add_proto_expert_info(marks.above_7f)
    end
    return string.format(", note %d, velocity %d", bytes(2, 1):uint(), velocity:uint())
end

-- The name of a channel voice message, and what is said of it.
local function channel_voice(tree, bytes, kind)
    local name = NOTES[bytes(1, 1):bitfield(0, 4)]
    tree:add(field.status, bytes(1, 1))
    tree:add(field.channel, bytes(1, 1))
    local channel = ", channel " .. bytes(1, 1):bitfield(4, 4)
    if name then
        return name, channel .. note(tree, bytes, kind)
    end
    return TYPES[kind], channel
end

local function whole_message(tree, bytes)
    local kind = bytes(0, 1):bitfield(0, 4)
    local item = tree:add(bytes, "")
    local name, group, said = TYPES[kind], "", ""
    item:add(field.message, bytes)
    item:add(field.type, bytes(0, 1))
    if GROUPED[kind] then
        item:add(field.group, bytes(0, 1))
        group = ", group " .. bytes(0, 1):bitfield(4, 4)
    end
    if kind == MIDI_1 or kind == MIDI_2 then
        name, said = channel_voice(item, bytes, kind)
    end
    item:set_text(name .. group .. said)
end

local function cut_message(tree, bytes, words)
    local name = TYPES[bytes(0, 1):bitfield(0, 4)]
    local item = tree:add(bytes, string.format("%s, cut: %d of %s", name, bytes:len() / 4, counted(words)))
    item:add(field.message, bytes)
    item:add(field.type, bytes(0, 1))
    item:add_proto_expert_info(marks.cut_message)
end

-- Whether a message is cut.
local function messages(tree, bytes)
    local at = 0
    while at < bytes:len() do
        local words = WORDS[bytes(at, 1):bitfield(0, 4)]
        if at + 4 * words > bytes:len() then
            cut_message(tree, bytes(at), words)
            return true
        end
        whole_message(tree, bytes(at, 4 * words))
        at = at + 4 * words
    end
    return false
end

-- ---- commands: each fills its tree from the header and the words (nil for none), and gives its text

local function words_of(tree, body, from)
    for at = from, body and body:len() - 4 or -1, 4 do
        tree:add(field.word, body(at, 4))
    end
end

-- Words past the first, and a lower half that is not 0.
local function passed_over(tree, body)
    if body:len() > 4 then
        tree:add_proto_expert_info(marks.passed_over, "Words past the first: passed over in reading")
        words_of(tree, body, 4)
    end
    if body(2, 2):uint() ~= 0 then
        tree:add_proto_expert_info(marks.passed_over, "Lower half of the word, not 0: passed over in reading")
    end
end

-- A command by its header alone. The command bytes of data and of a request are their number.
local function title(header)
    local code, number = header(0, 1):uint(), header(2, 2):uint()
    if code == UMP_DATA then
        return "UMP Data " .. number
    end
    if code == REQUEST then
        return "Request " .. number
    end
    return code == ERROR and "Error" or string.format("Command %02X", code)
end

local function ump_data(tree, header, body)
    local n = header(1, 1):uint()
    tree:add(field.seq, header(2, 2))
    if n > MOST_WORDS then
        tree:add_proto_expert_info(marks.long)
    end
    local cut = body and messages(tree, body)
    return string.format("%s (%s%s)", title(header), counted(n), cut and ", message cut" or "")
end

local function retransmit_request(tree, header, body)
    tree:add(field.request_seq, header(2, 2))
    if not body then
        tree:add_proto_expert_info(marks.no_word)
        return title(header) .. " (no word)"
    end
    tree:add(field.request_count, body(0, 2))
    passed_over(tree, body)
    local count = body(0, 2):uint()
    return title(header) .. (count == 0 and " and all after" or "+" .. count)
end

-- The reason of an error, by name where it has one.
local function reason_of(tree, header)
    local reason = header(2, 1):uint()
    local item = tree:add(field.error_reason, header(2, 1))
    if REASONS[reason] then
        return REASONS[reason]
    end
    item:set_text(string.format("Reason: not defined (0x%02x)", reason))
    item:add_proto_expert_info(marks.reason)
    return string.format("reason %02X", reason)
end

local function retransmit_error(tree, header, body)
    local reason = reason_of(tree, header)
    if header(3, 1):uint() ~= 0 then
        tree:add(field.csd2, header(3, 1)):add_proto_expert_info(marks.passed_over, "Second command byte, not 0: passed over in reading")
    end
    if not body then
        tree:add_proto_expert_info(marks.no_word)
        return string.format("%s (%s, no word)", title(header), reason)
    end
    tree:add(field.error_seq, body(0, 2))
    passed_over(tree, body)
    return string.format("%s %d (%s)", title(header), body(0, 2):uint(), reason)
end

local function raw(tree, header, body)
    tree:add(field.csd1, header(2, 1))
    tree:add(field.csd2, header(3, 1))
    words_of(tree, body, 0)
    return string.format("%s (%s)", title(header), counted(header(1, 1):uint()))
end

local KINDS = { [UMP_DATA] = ump_data, [REQUEST] = retransmit_request, [ERROR] = retransmit_error }

local function header_of(tree, header)
    local code = header(0, 1):uint()
    local item = tree:add(field.command, header(0, 1))
    if not COMMANDS[code] then
        item:set_text(string.format("Command: raw (0x%02x)", code))
    end
    tree:add(field.words, header(1, 1))
end

local function whole_command(tree, bytes)
    local header, body = bytes(0, 4), bytes:len() > 4 and bytes(4) or nil
    local item = tree:add(bytes, "")
    header_of(item, header)
    local says = (KINDS[header(0, 1):uint()] or raw)(item, header, body)
    item:set_text(says)
    return says
end

-- Of a cut command the header is known, and its words are not read. It is no fault where the capture has cut it.
local function cut_command(tree, bytes, whole)
    local n = bytes(1, 1):uint()
    local item = tree:add(bytes, string.format("%s, cut: %d of %d bytes", title(bytes), bytes:len(), 4 + 4 * n))
    header_of(item, bytes(0, 4))
    item:add(field.csd1, bytes(2, 1))
    item:add(field.csd2, bytes(3, 1))
    if whole then
        item:add_proto_expert_info(marks.cut_command)
    end
    return string.format("%s (%s, cut)", title(bytes), counted(n))
end

-- ---- payloads

-- The texts of the commands, in order. `whole`: the capture has all of the payload.
local function commands(tree, tvb, whole)
    local at, said = 4, {}
    while at + 4 <= tvb:len() do
        local len = 4 + 4 * tvb(at + 1, 1):uint()
        if at + len > tvb:len() then
            said[#said + 1] = cut_command(tree, tvb(at), whole)
            return said
        end
        said[#said + 1] = whole_command(tree, tvb(at, len))
        at = at + len
    end
    if at < tvb:len() and whole then
        tree:add(field.rest, tvb(at)):add_proto_expert_info(marks.passed_over)
    end
    return said
end

-- The first of the texts, and how many more there are.
local function line(said)
    if #said == 0 then
        return "no command"
    end
    local most = #said > MOST_SHOWN + 1 and MOST_SHOWN or #said
    local shown = table.concat(said, " · ", 1, most)
    return most < #said and shown .. " · " .. #said - most .. " more" or shown
end

local function signed(tvb)
    return tvb:len() >= 4 and tvb(0, 4):uint() == SIGNATURE
end

function sirmjold.dissector(tvb, pinfo, tree)
    local top = tree:add(sirmjold, tvb())
    pinfo.cols.protocol = "Sirmjold"
    if not signed(tvb) then
        top:add_proto_expert_info(marks.no_signature)
        pinfo.cols.info = "no signature"
        return tvb:len()
    end
    local whole = tvb:reported_len() == tvb:len()
    top:add(field.signature, tvb(0, 4))
    local said = commands(top, tvb, whole)
    local cut = whole and "" or ", cut by the capture"
    top:append_text((#said == 1 and ", 1 command" or ", " .. #said .. " commands") .. cut)
    pinfo.cols.info = line(said) .. cut
    if not whole then
        top:add_proto_expert_info(marks.cut_capture)
    end
    return tvb:len()
end

sirmjold:register_heuristic("udp", function(tvb, pinfo, tree)
    if not signed(tvb) then
        return false
    end
    sirmjold.dissector(tvb, pinfo, tree)
    return true
end)
DissectorTable.get("udp.port"):add_for_decode_as(sirmjold)
