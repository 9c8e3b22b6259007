-- A dissector of Wireshark for the datagrams of docs/wire.md, "Datagrams", on UDP port 28000, with hello and welcome.
--
--   wireshark -X lua_script:tools/wireshark/tribes.lua CAPTURE
--
-- What comes from port 28000 is the server's, what goes to it a client's. Each ghost, event, block and move is a branch of the tree that says
-- in words what it is, and each part is a leaf, with its line of docs/packets.md. A part's filter is `tribes.` and its name, as
-- `tribes.seq == 5`; what further filters there are is said there too. The version of the wire is told by the welcome, where the capture has
-- it, or by the preference. With `-X lua_script1:tap` tshark tells at its end how many bits each part took.

local words_of_script = { ... }
local tribes = Proto("tribes", "Tribes networking")
local PORT = 28000

tribes.prefs.version = Pref.enum("Version of the wire", 0, "Which version datagrams have", {
    { 1, "by the welcome, else 1", 0 }, { 2, "version 1", 1 }, { 3, "version 2", 2 },
}, false)

-- ---- kinds and fields (docs/world.md, "Kinds")

local function field(name, high, bits) return { name = name, high = high, bits = bits } end
local KINDS = {
    [0] = { name = "player", field("x", 65535, 16), field("y", 65535, 16), field("hp", 100, 7), field("ammo", 20, 5), field("score", 255, 8) },
    { name = "disc", field("x", 65535, 16), field("y", 65535, 16) },
    { name = "mine", field("x", 65535, 16), field("y", 65535, 16), field("armed", 1, 1) },
    { name = "drone", field("x", 65535, 12), field("y", 65535, 12), field("hp", 100, 5) },
    { name = "flag", field("x", 65535, 16), field("y", 65535, 16), field("holder", 16, 5) },
    { name = "clock", field("tick", 16777215, 24), field("red", 255, 8), field("blue", 255, 8) },
}
local KIND_COUNT = 6

-- The value that a level shows; each field begins at 0.
local function shown(one, level)
    local most = 2 ^ one.bits - 1
    return math.floor((2 * level * one.high + most) / (2 * most))
end

-- ---- filters

local NUMBERS = {
    "kind", "client", "seq", "horizon", "mask", "accepted", "control.flag", "control.slot",
    "block.count", "block.number", "block.length", "block.byte",
    "event.count", "event.guaranteed", "event.number", "event.length", "event.byte",
    "ghost.count", "ghost.slot", "ghost.op", "ghost.kind", "ghost.block", "ghost.mask",
    "move.first", "move.count", "move.dx", "move.dy", "move.fire", "move.use",
    "hello.nonce", "welcome.nonce", "welcome.client", "welcome.life", "welcome.size", "welcome.version",
}
local fields = {}
for _, name in ipairs(NUMBERS) do fields[name] = ProtoField.uint32("tribes." .. name, name) end
for kind = 0, KIND_COUNT - 1 do
    for _, one in ipairs(KINDS[kind]) do
        local name = KINDS[kind].name .. "." .. one.name
        fields[name] = ProtoField.uint32("tribes." .. name, name)
    end
end
fields["block.data"] = ProtoField.bytes("tribes.block.data", "block.data")
fields["event.payload"] = ProtoField.bytes("tribes.event.payload", "event.payload")
for _, name in ipairs({ "ghost", "event", "block", "move" }) do fields[name] = ProtoField.string("tribes." .. name, name) end
fields["ghost.of"] = ProtoField.string("tribes.ghost.of", "ghost.of")
fields["verdict"] = ProtoField.string("tribes.verdict", "verdict")
fields["lost"] = ProtoField.uint32("tribes.lost", "lost")
fields["fault"] = ProtoField.string("tribes.fault", "fault")
fields["way"] = ProtoField.string("tribes.way", "way")
tribes.fields = fields
local fault_note = ProtoExpert.new("tribes.faulty", "Faulty datagram", expert.group.MALFORMED, expert.severity.ERROR)
tribes.experts = { fault_note }

-- ---- reading parts

local Reader = {}
Reader.__index = Reader

local function reader(tvb, tree)
    return setmetatable({ tvb = tvb, bits = 8 * tvb:len(), at = 0, tree = tree, said = {}, used = {} }, Reader)
end

-- The bytes that these bits touch.
function Reader:range(at, width)
    local first = math.floor(at / 8)
    local last = math.floor((at + math.max(width, 1) - 1) / 8)
    local length = self.tvb:len()
    if first >= length then return self.tvb(math.max(length - 1, 0), math.min(length, 1)) end
    return self.tvb(first, math.min(last, length - 1) - first + 1)
end

function Reader:number(at, width)
    local value, got = 0, 0
    while got < width do
        local byte = self.tvb(math.floor((at + got) / 8), 1):uint()
        local skip = (at + got) % 8
        local count = math.min(8 - skip, width - got)
        value = value + math.floor(byte / 2 ^ skip) % 2 ^ count * 2 ^ got
        got = got + count
    end
    return value
end

-- A fault ends the reading.
function Reader:fail(at, cause) error({ at = at, cause = cause }, 0) end

-- The next number, told as a part. `check` gives the cause of a fault, or nothing; `mean` gives what a value means, or nothing.
function Reader:take(name, width, check, mean)
    local at = self.at
    if self.bits - at < width then self:fail(at, "Short") end
    local value = self:number(at, width)
    local cause = check and check(value)
    if cause then self:fail(at, cause) end
    self.at = at + width
    self.used[#self.used + 1] = { name, width }
    local meaning = mean and mean(value)
    local text = string.format("%d %d %s %d%s", at, width, name, value, meaning and (" " .. meaning) or "")
    local item = self.tree:add(fields[name], self:range(at, width), value)
    item:set_text(text)
    return value, item
end

-- An item of a packet: a branch, whose parts `read` takes. `read` gives the branch's words, which stand in the column too.
function Reader:branch(name, read)
    local trunk, at = self.tree, self.at
    local item = trunk:add(fields[name], self:range(at, 1), "")
    item:set_text(name)
    self.tree = item
    local text = read(item)
    self.tree = trunk
    item:set_len(self:range(at, self.at - at):len())
    item:set_text(text)
    self.said[#self.said + 1] = text
end

local function at_most(most, cause) return function(value) if value > most then return cause end end end
local function words(list) return function(value) return list[value] end end
local function step(value) return tostring(value - 8):gsub("%.0$", "") end

-- ---- packets

function Reader:header()
    local kind = self:take("kind", 2, at_most(1, "KindBits"), words({ [0] = "data", "ping" }))
    local client = self:take("client", 4)
    local seq = self:take("seq", 24, function(value) if value == 0 then return "ZeroSeq" end end)
    local horizon = self:take("horizon", 24)
    local mask = self:take("mask", 32)
    return kind, client, seq, horizon, mask
end

-- So many bytes, and all of them together under another name.
function Reader:bytes(name, whole, count)
    local data = ByteArray.new()
    data:set_size(count)
    for i = 0, count - 1 do data:set_index(i, (self:take(name, 8))) end
    if count > 0 then
        local item = self.tree:add(fields[whole], data:tvb(whole):range())
        item:set_text(whole .. " " .. data:tohex(true))
    end
    return data
end

-- Bytes in words: in quotes, where they are text.
local function quoted(data)
    if data:len() == 0 then return "nothing" end
    local text = data:raw()
    return text:find("^[ -~]*$") and '"' .. text .. '"' or data:tohex(true)
end

function Reader:block()
    local number = self:take("block.number", 6)
    return string.format("block %d %s", number, quoted(self:bytes("block.byte", "block.data", (self:take("block.length", 6, at_most(40, "LengthBits"))))))
end

function Reader:blocks()
    local count = self:take("block.count", 4)
    for _ = 1, count do self:branch("block", function() return self:block() end) end
    return count
end

-- The text of so many bytes from here on, where all of them are there and are text.
function Reader:text(count)
    if count == 0 or self.bits - self.at < 8 * count then return nil end
    local text = {}
    for i = 0, count - 1 do
        local byte = self:number(self.at + 8 * i, 8)
        if byte < 32 or byte > 126 then return nil end
        text[i + 1] = string.char(byte)
    end
    return '"' .. table.concat(text) .. '"'
end

function Reader:event(version)
    local name = "loose event"
    if self:take("event.guaranteed", 1) == 1 then name = string.format("event %d", (self:take("event.number", version == 2 and 7 or 24))) end
    local length = self:take("event.length", 5, at_most(24, "LengthBits"), function(value) return self:text(value) end)
    return name .. " " .. quoted(self:bytes("event.byte", "event.payload", length))
end

function Reader:events(version)
    local count = self:take("event.count", 5)
    for _ = 1, count do self:branch("event", function() return self:event(version) end) end
    return count
end

local function is_set(mask, number) return math.floor(mask / 2 ^ number) % 2 == 1 end

-- The fields of the mask, or all; gives them in words.
function Reader:levels(kind, mask)
    local said = {}
    for number, one in ipairs(KINDS[kind]) do
        if not mask or is_set(mask, number - 1) then
            local mean = function(level) return string.format("%d", shown(one, level)) end
            said[#said + 1] = one.name .. " " .. mean((self:take(KINDS[kind].name .. "." .. one.name, one.bits, nil, mean)))
        end
    end
    return table.concat(said, " ")
end

function Reader:kind()
    return (self:take("ghost.kind", 4, at_most(KIND_COUNT - 1, "UnknownKind"), function(value) return KINDS[value].name end))
end

local function fields_of(kind)
    return function(mask)
        local names = {}
        for number, one in ipairs(KINDS[kind]) do
            if is_set(mask, number - 1) then names[#names + 1] = one.name end
        end
        return table.concat(names, " ")
    end
end

-- One ghost; gives its words. `changes` gets what the slot holds behind the packet: a kind, or false.
function Reader:ghost(item, version, held, changes)
    local slot = self:take("ghost.slot", 8)
    local op = self:take("ghost.op", 2, at_most(2, "OpBits"), words({ [0] = "kill", "create", "update" }))
    local kind, levels
    if op == 0 then
        changes[#changes + 1] = { slot, false }
        return string.format("kill slot %d", slot)
    elseif op == 1 then
        kind = self:kind()
        self:take("ghost.block", 6)
        levels = self:levels(kind)
        changes[#changes + 1] = { slot, kind }
    else
        if version == 2 then
            kind = held[slot]
            if not kind then self:fail(self.at, "UnknownSlot") end
        else
            kind = self:kind()
            changes[#changes + 1] = { slot, kind }
        end
        levels = self:levels(kind, (self:take("ghost.mask", #KINDS[kind], function(value) if value == 0 then return "EmptyMask" end end, fields_of(kind))))
    end
    item:add(fields["ghost.of"], KINDS[kind].name):set_generated()
    return string.format("%s slot %d %s %s", op == 1 and "create" or "update", slot, KINDS[kind].name, levels)
end

function Reader:server_body(version, held, changes)
    self:take("accepted", 24)
    if self:take("control.flag", 1) == 1 then self:take("control.slot", 8) end
    local blocks, events = self:blocks(), self:events(version)
    local ghosts = self:take("ghost.count", 8, at_most(128, "CountBits"))
    for _ = 1, ghosts do self:branch("ghost", function(item) return self:ghost(item, version, held, changes) end) end
    return string.format("blocks %d events %d ghosts %d", blocks, events, ghosts)
end

function Reader:move(number)
    local dx, dy = self:take("move.dx", 4, nil, step), (self:take("move.dy", 4, nil, step))
    local fires, uses = self:take("move.fire", 1) == 1, self:take("move.use", 1) == 1
    return string.format("move %d %d %d%s%s", number, dx - 8, dy - 8, fires and " fires" or "", uses and " uses" or "")
end

function Reader:client_body(version)
    local first = self:take("move.first", 24)
    local moves = self:take("move.count", 6, at_most(32, "CountBits"))
    for k = 0, moves - 1 do self:branch("move", function() return self:move(first + k) end) end
    return string.format("moves %d events %d", moves, self:events(version))
end

function Reader:close()
    local left = self.bits - self.at
    if left > 7 or (left > 0 and self:number(self.at, left) > 0) then self:fail(self.at, "Padding") end
end

-- ---- conversations: the version that a welcome told, the kinds that slots held before each frame, and the verdicts that it brought

local versions, held_now, held_before = {}, {}, {}
-- For each way of each conversation the first packet without a verdict and the last that was seen; for each frame its verdicts.
local first_unjudged, last_seen, verdicts = {}, {}, {}
local bits_of = { down = {}, up = {} }

function tribes.init()
    versions, held_now, held_before = {}, {}, {}
    first_unjudged, last_seen, verdicts = {}, {}, {}
    bits_of = { down = {}, up = {} }
end

-- What an acknowledgement that goes `way` says of the packets of the other way. One that names a packet which was not seen says nothing.
local function judge(client, way, horizon, mask)
    local other = (way == "down" and "up " or "down ") .. client
    local first, lost, came = first_unjudged[other] or 1, {}, 0
    if horizon > (last_seen[other] or 0) then return { lost = lost, came = 0 } end
    for seq = first, horizon do
        if horizon - seq < 32 and is_set(mask, horizon - seq) then came = came + 1 else lost[#lost + 1] = seq end
    end
    first_unjudged[other] = math.max(first, horizon + 1)
    return { lost = lost, came = came }
end

-- On the first pass over the frames: the verdicts, and how many bits each part took.
local function note(frame, client, way, read, kind, seq, horizon, mask)
    verdicts[frame] = judge(client, way, horizon, mask)
    if kind == 0 then last_seen[way .. " " .. client] = math.max(last_seen[way .. " " .. client] or 0, seq) end
    for _, part in ipairs(read.used) do
        local use = part[1]:match("^(%a+)%.") or "header"
        if use == "control" then use = "header" end
        bits_of[way][use] = (bits_of[way][use] or 0) + part[2]
    end
end

local function tell_verdicts(frame, tvb, tree)
    local told = verdicts[frame]
    if not told then return "" end
    for _, seq in ipairs(told.lost) do
        local item = tree:add(fields["lost"], tvb(0, 1), seq)
        item:set_text(string.format("packet %d lost", seq))
        item:set_generated()
    end
    if told.came == 0 and #told.lost == 0 then return "" end
    local text = string.format("%d came", told.came) .. (#told.lost > 0 and ", lost " .. table.concat(told.lost, " ") or "")
    tree:add(fields["verdict"], tvb(0, 1), text):set_generated()
    return #told.lost > 0 and string.format("; packet %s lost", table.concat(told.lost, " ")) or ""
end

local function version_of(client)
    if tribes.prefs.version > 0 then return tribes.prefs.version end
    return versions[client] or 1
end

local function held_at(client, frame)
    if not held_before[frame] then
        local copy = {}
        for slot, kind in pairs(held_now[client] or {}) do copy[slot] = kind end
        held_before[frame] = copy
    end
    return held_before[frame]
end

local function follow(client, changes)
    local held = held_now[client] or {}
    for _, change in ipairs(changes) do held[change[1]] = change[2] or nil end
    held_now[client] = held
end

-- ---- datagrams

local function hello(tvb, pinfo, tree)
    tree:add_le(fields["hello.nonce"], tvb(1, 4))
    pinfo.cols.info = string.format("hello nonce %d", tvb(1, 4):le_uint())
end

local function welcome(tvb, pinfo, tree, client)
    for _, part in ipairs({ { "nonce", 1, 4 }, { "client", 5, 1 }, { "life", 6, 3 }, { "size", 9, 2 }, { "version", 11, 1 } }) do
        tree:add_le(fields["welcome." .. part[1]], tvb(part[2], part[3]))
    end
    if not pinfo.visited then versions[client] = tvb(11, 1):uint() end
    pinfo.cols.info = string.format("welcome client %d version %d", tvb(5, 1):uint(), tvb(11, 1):uint())
end

-- What is in a packet, in words, as long as a column is wide.
local function summary(said, counts)
    local text = table.concat(said, ", ")
    return #said > 0 and #text <= 100 and text or counts
end

local function packet(tvb, pinfo, tree, is_down, client)
    local read, version, changes = reader(tvb, tree), version_of(client), {}
    local held = is_down and version == 2 and held_at(client, pinfo.number) or {}
    local way = is_down and "down" or "up"
    local head, kind, seq, horizon, mask, _
    local fine, said = pcall(function()
        kind, _, seq, horizon, mask = read:header()
        head = string.format("seq %d horizon %d", seq, horizon)
        if kind == 1 then
            read:close()
            return "ping"
        end
        local counts = is_down and read:server_body(version, held, changes) or not is_down and read:client_body(version)
        read:close()
        return summary(read.said, counts)
    end)
    if fine then
        if not pinfo.visited then
            if is_down then follow(client, changes) end
            note(pinfo.number, client, way, read, kind, seq, horizon, mask)
        end
        pinfo.cols.info = string.format("%s %s: %s%s", way, head, said, tell_verdicts(pinfo.number, tvb, tree))
    elseif type(said) == "table" then
        local text = string.format("%d fault %s", said.at, said.cause)
        local item = tree:add(fields["fault"], read:range(said.at, 1), said.cause)
        item:set_text(text)
        item:add_proto_expert_info(fault_note, text)
        pinfo.cols.info = string.format("%s %s bits %s", way, head or "", text)
    else
        error(said, 0)
    end
end

function tribes.dissector(tvb, pinfo, root)
    pinfo.cols.protocol = "tribes"
    local is_down = pinfo.src_port == PORT
    local client = is_down and string.format("%s %d", tostring(pinfo.dst), pinfo.dst_port) or string.format("%s %d", tostring(pinfo.src), pinfo.src_port)
    local tree = root:add(tribes, tvb())
    local length = tvb:len()
    if not is_down and length == 5 and tvb(0, 1):uint() == 2 then
        hello(tvb, pinfo, tree)
    elseif is_down and length == 12 and tvb(0, 1):uint() == 3 then
        welcome(tvb, pinfo, tree, client)
    else
        packet(tvb, pinfo, tree, is_down, client)
    end
    return length
end

DissectorTable.get("udp.port"):add(PORT, tribes)

-- ---- the tap: how many bits each part took

if words_of_script[1] == "tap" then
    local listener = Listener.new("udp", "tribes")
    function listener.draw()
        for _, way in ipairs({ "down", "up" }) do
            local names, all = {}, 0
            for name, bits in pairs(bits_of[way]) do
                names[#names + 1] = name
                all = all + bits
            end
            table.sort(names)
            for _, name in ipairs(names) do
                print(string.format("%s %s: %d bytes, %d of 100", way, name, bits_of[way][name] / 8, 100 * bits_of[way][name] / all))
            end
        end
    end
end
