-- T2-MI in MPEG transport packets, for Wireshark (ETSI TS 102 773): baseband frames in high-efficiency mode, L1-current in the layout that
-- docs/FORMATS.md has, timestamps. Load it by `tshark -X lua_script:t2mi.lua`, or from Wireshark's folder of plugins.
--
-- It looks at the packets of one PID (a preference), joins their payloads, and shows each T2-MI packet in the frame with which it ends; the column
-- Info names them. Wireshark takes what begins behind a pointer field for a section: `--disable-protocol mpeg_sect` leaves those trees out.

local t2mi = Proto("t2mi", "T2-MI")

t2mi.prefs.pid = Pref.uint("PID", 256, "The PID of the transport packets that carry T2-MI")

local HEADER, CRC32, CRC8 = 6, 4, 1

-- Fields --------------------------------------------------------------------------------------------------------------------------

local TYPES = { [0x00] = "baseband frame", [0x10] = "L1-current", [0x20] = "timestamp" }
local BANDS = { [0] = "1.7 MHz", [1] = "5 MHz", [2] = "6 MHz", [3] = "7 MHz", [4] = "8 MHz", [5] = "10 MHz" }
local SYNCD_NONE = { [0xFFFF] = "no user packet begins" }

local fields = {}

local list = {}
local function add(kind, name, title, ...)
  fields[name] = ProtoField[kind]("t2mi." .. name, title, ...)
  table.insert(list, fields[name])
end

add("uint64", "place", "Place in the capture", base.DEC)
add("uint8", "type", "packet_type", base.HEX, TYPES)
add("uint8", "count", "packet_count", base.DEC)
add("uint8", "superframe", "superframe_idx", base.DEC)
add("uint16", "rfu", "rfu", base.HEX)
add("uint8", "stream", "t2mi_stream_id", base.DEC)
add("uint16", "payload_len", "payload_len (bits)", base.DEC)
add("uint32", "crc32", "crc32", base.HEX)
add("bool", "crc32_good", "crc32 fits")
add("uint8", "bb.frame_idx", "frame_idx", base.DEC)
add("uint8", "bb.plp_id", "plp_id", base.DEC)
add("bool", "bb.first", "intl_frame_start")
add("uint8", "bb.ts_gs", "TS/GS", base.DEC)
add("bool", "bb.sis", "SIS/MIS")
add("bool", "bb.ccm", "CCM/ACM")
add("bool", "bb.issyi", "ISSYI")
add("bool", "bb.npd", "NPD")
add("uint8", "bb.ext", "EXT", base.DEC)
add("uint8", "bb.matype2", "MATYPE-2", base.DEC)
add("uint24", "bb.issy", "ISSY", base.HEX)
add("uint16", "bb.dfl", "DFL (bits)", base.DEC)
add("uint16", "bb.syncd", "SYNCD (bits)", base.DEC, SYNCD_NONE)
add("uint8", "bb.crc8", "CRC-8 XOR MODE", base.HEX)
add("bool", "bb.crc8_good", "CRC-8 fits high-efficiency mode")
add("bytes", "bb.data", "Data field")
add("uint8", "l1.frame_idx", "frame_idx", base.DEC)
add("uint8", "l1.freq_source", "freq_source", base.DEC)
add("uint16", "l1.conf_len", "L1CONF_LEN (bits)", base.DEC)
add("uint16", "l1.dyn_len", "L1DYN_CURR_LEN (bits)", base.DEC)
add("uint16", "l1.ext_len", "L1EXT_LEN (bits)", base.DEC)
add("uint8", "stamp.bw", "bw", base.DEC, BANDS)
add("uint64", "stamp.seconds", "seconds_since_2000", base.DEC)
add("uint32", "stamp.subseconds", "subseconds", base.DEC)
add("uint16", "stamp.utco", "utco", base.DEC)
add("bytes", "other", "Payload")

-- The rows of L1 (EN 302 755, clause 7.2), each by its name and width.
local PRE = {
  { "type", 8 }, { "bwt_ext", 1 }, { "s1", 3 }, { "s2", 4 }, { "l1_repetition_flag", 1 }, { "guard_interval", 3 }, { "papr", 4 },
  { "l1_mod", 4 }, { "l1_cod", 2 }, { "l1_fec_type", 2 }, { "l1_post_size", 18 }, { "l1_post_info_size", 18 }, { "pilot_pattern", 4 },
  { "tx_id_availability", 8 }, { "cell_id", 16 }, { "network_id", 16 }, { "t2_system_id", 16 }, { "num_t2_frames", 8 },
  { "num_data_symbols", 12 }, { "regen_flag", 3 }, { "l1_post_extension", 1 }, { "num_rf", 3 }, { "current_rf_idx", 3 },
  { "t2_version", 4 }, { "l1_post_scrambled", 1 }, { "t2_base_lite", 1 }, { "reserved", 4 },
}
local CONF = { { "sub_slices_per_frame", 15 }, { "num_plp", 8 }, { "num_aux", 4 }, { "aux_config_rfu", 8 }, { "rf_idx", 3 }, { "frequency", 32 } }
local CONF_PLP = {
  { "plp_id", 8 }, { "plp_type", 3 }, { "plp_payload_type", 5 }, { "ff_flag", 1 }, { "first_rf_idx", 3 }, { "first_frame_idx", 8 },
  { "plp_group_id", 8 }, { "plp_cod", 3 }, { "plp_mod", 3 }, { "plp_rotation", 1 }, { "plp_fec_type", 2 }, { "plp_num_blocks_max", 10 },
  { "frame_interval", 8 }, { "time_il_length", 8 }, { "time_il_type", 1 }, { "in_band_a_flag", 1 }, { "in_band_b_flag", 1 },
  { "reserved_1", 11 }, { "plp_mode", 2 }, { "static_flag", 1 }, { "static_padding_flag", 1 },
}
local CONF_END = { { "fef_length_msb", 2 }, { "reserved_2", 30 } }
local DYN = { { "frame_idx", 8 }, { "sub_slice_interval", 22 }, { "type_2_start", 22 }, { "l1_change_counter", 8 }, { "start_rf_idx", 3 }, { "reserved_1", 8 } }
local DYN_PLP = { { "plp_id", 8 }, { "plp_start", 22 }, { "plp_num_blocks", 10 }, { "reserved_2", 8 } }
local DYN_END = { { "reserved_3", 8 } }

local function add_rows(part, rows)
  for _, row in ipairs(rows) do
    add("uint32", part .. "." .. row[1], row[1]:upper(), base.DEC)
  end
end

add_rows("pre", PRE)
add_rows("conf", CONF)
add_rows("conf.plp", CONF_PLP)
add_rows("conf.end", CONF_END)
add_rows("dyn", DYN)
add_rows("dyn.plp", DYN_PLP)
add_rows("dyn.end", DYN_END)

t2mi.fields = list

local ex_counter = ProtoExpert.new("t2mi.counter", "The continuity counter jumps", expert.group.SEQUENCE, expert.severity.WARN)
local ex_lost = ProtoExpert.new("t2mi.lost", "A T2-MI packet is cut off", expert.group.MALFORMED, expert.severity.WARN)
local ex_crc = ProtoExpert.new("t2mi.crc", "crc32 differs", expert.group.CHECKSUM, expert.severity.ERROR)
local ex_crc8 = ProtoExpert.new("t2mi.crc8", "CRC-8 does not fit high-efficiency mode", expert.group.CHECKSUM, expert.severity.ERROR)
local ex_shape = ProtoExpert.new("t2mi.shape", "The payload does not have the length of its type", expert.group.MALFORMED, expert.severity.ERROR)
t2mi.experts = { ex_counter, ex_lost, ex_crc, ex_crc8, ex_shape }

-- CRCs ----------------------------------------------------------------------------------------------------------------------------

local band, bxor, lshift, rshift = bit32.band, bit32.bxor, bit32.lshift, bit32.rshift

local function table_of(generator, width)
  local top, entries = lshift(1, width - 1), {}
  for i = 0, 255 do
    local c = lshift(i, width - 8)
    for _ = 1, 8 do
      c = band(c, top) ~= 0 and bxor(lshift(c, 1), generator) or lshift(c, 1)
    end
    entries[i] = width == 32 and c or band(c, 0xFF)
  end
  return entries
end

local T32, T8 = table_of(0x04C11DB7, 32), table_of(0xD5, 8)

local function crc32(bytes, len)
  local c = 0xFFFFFFFF
  for i = 1, len do
    c = bxor(lshift(c, 8), T32[bxor(rshift(c, 24), bytes:byte(i))])
  end
  return c
end

local function crc8(bytes, from, to)
  local c = 0
  for i = from, to do
    c = T8[bxor(c, bytes:byte(i))]
  end
  return c
end

-- Packets out of transport packets --------------------------------------------------------------------------------------------------

local transport = Field.new("mp2t")

-- What waits: the bytes of a packet under way, where it began, and the last counter. `shown` has what each frame shows.
local state, shown

function t2mi.init()
  state = { bytes = nil, place = 0, counter = nil, units = 0 }
  shown = {}
end

local function packet_len(bytes)
  if #bytes < HEADER then
    return nil
  end
  local bits = bytes:byte(5) * 256 + bytes:byte(6)
  return HEADER + math.floor((bits + 7) / 8) + CRC32
end

-- A T2-MI packet in a few words.
local function words_of(bytes)
  local kind = bytes:byte(1)
  if kind == 0x00 and #bytes >= HEADER + 3 + CRC32 then
    return string.format("block PLP %d frame %d", bytes:byte(8), bytes:byte(7))
  elseif kind == 0x10 and #bytes >= HEADER + 2 + CRC32 then
    return string.format("L1-current frame %d", bytes:byte(7))
  elseif kind == 0x20 and #bytes == HEADER + 11 + CRC32 then
    local seconds = 0
    for i = 8, 12 do
      seconds = seconds * 256 + bytes:byte(i)
    end
    return string.format("timestamp %d s", seconds)
  end
  return string.format("type 0x%02x", kind)
end

-- Takes bytes of the stream, of which the first stands at a place, and gives the packets that are complete.
local function take(frame, bytes, place)
  if not state.bytes then
    return
  end
  if state.bytes == "" then
    state.place = place
  end
  state.bytes = state.bytes .. bytes
  local len = packet_len(state.bytes)
  while len and #state.bytes >= len do
    table.insert(frame, { bytes = state.bytes:sub(1, len), place = state.place })
    state.bytes = state.bytes:sub(len + 1)
    state.place = place + #bytes - #state.bytes
    len = packet_len(state.bytes)
  end
end

-- Looks at a transport packet.
local function look(frame, unit)
  local base_place = 188 * state.units
  state.units = state.units + 1
  if #unit < 188 or unit:byte(1) ~= 0x47 then
    return
  end
  local second, fourth = unit:byte(2), unit:byte(4)
  local pid = band(second, 0x1F) * 256 + unit:byte(3)
  if pid ~= t2mi.prefs.pid or band(second, 0x80) ~= 0 or band(fourth, 0xC0) ~= 0 or band(fourth, 0x10) == 0 then
    return
  end
  frame.on_pid = true
  local from = 5
  if band(fourth, 0x20) ~= 0 then
    from = 6 + unit:byte(5)
  end
  if from > 188 then
    return
  end
  local counter = band(fourth, 0x0F)
  if state.counter and counter ~= (state.counter + 1) % 16 then
    table.insert(frame, { note = ex_counter })
    state.bytes = nil
  end
  state.counter = counter
  if band(second, 0x40) == 0 then
    take(frame, unit:sub(from), base_place + from - 1)
    return
  end
  local start = from + 1 + unit:byte(from)
  if start > 188 then
    return
  end
  take(frame, unit:sub(from + 1, start - 1), base_place + from)
  if state.bytes and state.bytes ~= "" then
    table.insert(frame, { note = ex_lost })
  end
  state.bytes = ""
  take(frame, unit:sub(start), base_place + start - 1)
end

-- Trees -----------------------------------------------------------------------------------------------------------------------------

local function bits(tvb, at, width)
  return tvb(math.floor(at / 8), math.floor((at + width - 1) / 8) - math.floor(at / 8) + 1):bitfield(at % 8, width)
end

-- Shows rows of L1 from a bit on, and answers the bit behind them.
local function show_rows(tree, tvb, part, rows, at)
  for _, row in ipairs(rows) do
    local first = math.floor(at / 8)
    local last = math.floor((at + row[2] - 1) / 8)
    if last >= tvb:len() then
      return at
    end
    tree:add(fields[part .. "." .. row[1]], tvb(first, last - first + 1), bits(tvb, at, row[2]))
    at = at + row[2]
  end
  return at
end

local function width_of(rows)
  local sum = 0
  for _, row in ipairs(rows) do
    sum = sum + row[2]
  end
  return sum
end

local function show_baseband(tree, tvb, bytes)
  if tvb:len() < HEADER + 3 + 10 + CRC32 then
    tree:add_proto_expert_info(ex_shape)
    return
  end
  tree:add(fields["bb.frame_idx"], tvb(6, 1))
  tree:add(fields["bb.plp_id"], tvb(7, 1))
  tree:add(fields["bb.first"], tvb(8, 1), tvb(8, 1):bitfield(0, 1) == 1)
  local head = tree:add(tvb(9, 10), "BBHEADER")
  head:add(fields["bb.ts_gs"], tvb(9, 1), tvb(9, 1):bitfield(0, 2))
  head:add(fields["bb.sis"], tvb(9, 1), tvb(9, 1):bitfield(2, 1) == 1)
  head:add(fields["bb.ccm"], tvb(9, 1), tvb(9, 1):bitfield(3, 1) == 1)
  head:add(fields["bb.issyi"], tvb(9, 1), tvb(9, 1):bitfield(4, 1) == 1)
  head:add(fields["bb.npd"], tvb(9, 1), tvb(9, 1):bitfield(5, 1) == 1)
  head:add(fields["bb.ext"], tvb(9, 1), tvb(9, 1):bitfield(6, 2))
  head:add(fields["bb.matype2"], tvb(10, 1))
  head:add(fields["bb.issy"], tvb(11, 2), tvb(11, 2):uint() * 256 + tvb(15, 1):uint())
  head:add(fields["bb.dfl"], tvb(13, 2))
  head:add(fields["bb.syncd"], tvb(16, 2))
  head:add(fields["bb.crc8"], tvb(18, 1))
  local good = bxor(crc8(bytes, 10, 18), 1) == tvb(18, 1):uint()
  local item = head:add(fields["bb.crc8_good"], tvb(18, 1), good)
  if not good then
    item:add_proto_expert_info(ex_crc8)
  end
  local len = math.min(math.floor(tvb(13, 2):uint() / 8), tvb:len() - 19 - CRC32)
  if len > 0 then
    tree:add(fields["bb.data"], tvb(19, len))
  end
end

local function show_part(tree, tvb, at, name)
  if at + 2 > tvb:len() - CRC32 then
    tree:add_proto_expert_info(ex_shape)
    return nil
  end
  tree:add(fields["l1." .. name .. "_len"], tvb(at, 2))
  return tvb(at, 2):uint(), at + 2
end

local function show_signalling(tree, tvb)
  if tvb:len() < HEADER + 2 + 21 + 2 then
    tree:add_proto_expert_info(ex_shape)
    return
  end
  tree:add(fields["l1.frame_idx"], tvb(6, 1))
  tree:add(fields["l1.freq_source"], tvb(7, 1), tvb(7, 1):bitfield(0, 2))
  show_rows(tree:add(tvb(8, 21), "L1-pre"), tvb, "pre", PRE, 8 * 8)
  local len, at = show_part(tree, tvb, 29, "conf")
  if not len or at + math.ceil(len / 8) > tvb:len() - CRC32 then
    return
  end
  local conf = tree:add(tvb(at, math.ceil(len / 8)), "L1-post, configurable")
  local place = show_rows(conf, tvb, "conf", CONF, 8 * at)
  local plps = math.floor((len - width_of(CONF) - width_of(CONF_END)) / width_of(CONF_PLP))
  for plp = 1, plps do
    place = show_rows(conf:add(tvb(math.floor(place / 8), 1), "PLP " .. (plp - 1)), tvb, "conf.plp", CONF_PLP, place)
  end
  show_rows(conf, tvb, "conf.end", CONF_END, place)
  len, at = show_part(tree, tvb, at + math.ceil(len / 8), "dyn")
  if not len or at + math.ceil(len / 8) > tvb:len() - CRC32 then
    return
  end
  local dyn = tree:add(tvb(at, math.ceil(len / 8)), "L1-post, dynamic")
  place = show_rows(dyn, tvb, "dyn", DYN, 8 * at)
  for plp = 1, math.floor((len - width_of(DYN) - width_of(DYN_END)) / width_of(DYN_PLP)) do
    place = show_rows(dyn:add(tvb(math.floor(place / 8), 1), "PLP " .. (plp - 1)), tvb, "dyn.plp", DYN_PLP, place)
  end
  show_rows(dyn, tvb, "dyn.end", DYN_END, place)
  show_part(tree, tvb, at + math.ceil(len / 8), "ext")
end

local function show_stamp(tree, tvb)
  if tvb:len() ~= HEADER + 11 + CRC32 then
    tree:add_proto_expert_info(ex_shape)
    return
  end
  tree:add(fields["stamp.bw"], tvb(6, 1), tvb(6, 1):bitfield(4, 4))
  tree:add(fields["stamp.seconds"], tvb(7, 5), tvb(7, 5):uint64())
  tree:add(fields["stamp.subseconds"], tvb(12, 4), tvb(12, 4):bitfield(0, 27))
  tree:add(fields["stamp.utco"], tvb(15, 2), tvb(15, 2):bitfield(3, 13))
end

local function show(root, bytes, place)
  local tvb = ByteArray.new(bytes, true):tvb("T2-MI packet")
  local kind = bytes:byte(1)
  local tree = root:add(t2mi, tvb(), "T2-MI: " .. (TYPES[kind] or string.format("type 0x%02x", kind)))
  tree:add(fields.place, tvb(0, 0), UInt64(place)):set_generated()
  tree:add(fields.type, tvb(0, 1))
  tree:add(fields.count, tvb(1, 1))
  tree:add(fields.superframe, tvb(2, 1), tvb(2, 1):bitfield(0, 4))
  tree:add(fields.rfu, tvb(2, 2), tvb(2, 2):bitfield(4, 9))
  tree:add(fields.stream, tvb(3, 1), tvb(3, 1):bitfield(5, 3))
  tree:add(fields.payload_len, tvb(4, 2))
  if kind == 0x00 then
    show_baseband(tree, tvb, bytes)
  elseif kind == 0x10 then
    show_signalling(tree, tvb)
  elseif kind == 0x20 then
    show_stamp(tree, tvb)
  elseif tvb:len() > HEADER + CRC32 then
    tree:add(fields.other, tvb(HEADER, tvb:len() - HEADER - CRC32))
  end
  local end_at = tvb:len() - CRC32
  tree:add(fields.crc32, tvb(end_at, CRC32))
  local good = crc32(bytes, end_at) == tvb(end_at, CRC32):uint()
  local item = tree:add(fields.crc32_good, tvb(end_at, CRC32), good)
  if not good then
    item:add_proto_expert_info(ex_crc)
  end
end

-- The columns of a frame that has transport packets of the PID. What other dissectors made of these is no section.
local function show_columns(pinfo, frame)
  local words = {}
  for _, entry in ipairs(frame) do
    table.insert(words, entry.note and "loss" or words_of(entry.bytes))
  end
  pinfo.cols.info:clear_fence()
  pinfo.cols.protocol = "T2-MI"
  pinfo.cols.info = #words > 0 and "T2-MI " .. table.concat(words, ", ") or "T2-MI, inside a packet"
end

function t2mi.dissector(tvb, pinfo, root)
  if not shown[pinfo.number] then
    local frame = {}
    for _, unit in ipairs({ transport() }) do
      look(frame, unit.range:raw())
    end
    shown[pinfo.number] = frame
  end
  if shown[pinfo.number].on_pid then
    show_columns(pinfo, shown[pinfo.number])
  end
  for _, entry in ipairs(shown[pinfo.number]) do
    if entry.note then
      root:add(t2mi, tvb(), "T2-MI"):add_proto_expert_info(entry.note)
    else
      show(root, entry.bytes, entry.place)
    end
  end
end

register_postdissector(t2mi, true)
