-- Shows the packets of a capture of link type 147 (DLT_USER0) in Wireshark and tshark: the pseudo-header, the packet's
-- header, segments, hops with their fields, destination field and payload, in the words of docs/FORMATS.md. Bytes that
-- are no packet are marked with the word of their first fault, as `epic` prints it (`layout short`).
--
--   tshark -X lua_script:epic.lua -r FILE -O epic
--
-- In Wireshark put this file into the folder of personal Lua plugins (Help, About Wireshark, Folders).

local epic = Proto("epic", "EPIC packet")

-- The lengths of parts, in bytes, and limits of the layout.
local PLACE_LEN = 16
local FIXED_LEN = 40
local SEGMENT_LEN = 8
local HOP_LEN = 13
local DEST_LEN = 16
local MOST_RECORD = 16384
local MOST_SEGMENTS = 3
local LEAST_SEGMENT_HOPS = 2
local MOST_SEGMENT_HOPS = 16
local MOST_HOPS = 32
local MOST_PAYLOAD = 8192

-- What a first byte says. No other byte begins a packet.
local FORMS = {
  [0xe0] = { version = 1, level = 0, width = 3 },
  [0xe1] = { version = 1, level = 1, width = 3 },
  [0xe2] = { version = 1, level = 2, width = 3 },
  [0xe3] = { version = 1, level = 3, width = 3 },
  [0xf2] = { version = 2, level = 2, width = 6 },
  [0xf3] = { version = 2, level = 3, width = 6 },
}

local KINDS = { [0] = "turn of a router", [1] = "arrival at a host" }
local DIRECTIONS = { [0] = "construction", [1] = "against construction" }

local fields = {
  fault = ProtoField.string("epic.fault", "Fault"),

  place_as = ProtoField.string("epic.place.as", "AS"),
  place_kind = ProtoField.uint8("epic.place.kind", "Kind", base.DEC, KINDS),
  place_zero = ProtoField.uint8("epic.place.zero", "Zero"),
  place_interface = ProtoField.uint16("epic.place.interface", "Interface", base.DEC, nil, nil, "0 from inside the AS"),
  place_host = ProtoField.uint32("epic.place.host", "Host"),

  version = ProtoField.uint8("epic.version", "Version"),
  level = ProtoField.uint8("epic.level", "Level"),
  flags = ProtoField.uint8("epic.flags", "Flags", base.HEX),
  header_length = ProtoField.uint16("epic.header_length", "Length of the header", base.DEC, nil, nil, "in bytes"),
  payload_length = ProtoField.uint16("epic.payload_length", "Length of the payload", base.DEC, nil, nil, "in bytes"),
  segments = ProtoField.uint8("epic.segments", "Number of segments"),
  current_hop = ProtoField.uint8("epic.current_hop", "Current hop", base.DEC, nil, nil, "the hops before it were passed"),
  src_as = ProtoField.string("epic.src.as", "Source AS"),
  dst_as = ProtoField.string("epic.dst.as", "Destination AS"),
  src_host = ProtoField.uint32("epic.src.host", "Source host"),
  dst_host = ProtoField.uint32("epic.dst.host", "Destination host"),
  timestamp = ProtoField.uint64("epic.timestamp", "Timestamp", base.DEC, nil, nil, "packet timestamp, in microseconds"),

  segment_direction = ProtoField.uint8("epic.segment.direction", "Direction", base.DEC, DIRECTIONS),
  segment_hops = ProtoField.uint8("epic.segment.hops", "Number of hops"),
  segment_reserved = ProtoField.uint16("epic.segment.reserved", "Reserved", base.HEX),
  segment_timestamp = ProtoField.uint32("epic.segment.timestamp", "Timestamp", base.DEC, nil, nil, "path timestamp, in seconds"),

  hop_index = ProtoField.uint8("epic.hop.index", "Index", base.DEC, nil, nil, "among the packet's hops in travel order, from 0"),
  hop_position = ProtoField.uint8("epic.hop.position", "Position", base.DEC, nil, nil, "in construction order, from 1"),
  hop_expiry = ProtoField.uint8("epic.hop.expiry", "Expiry", base.DEC, nil, nil, "in steps of 337.5 seconds from the segment's timestamp"),
  hop_inn = ProtoField.uint16("epic.hop.inn", "Interface towards the hop before", base.DEC, nil, nil, "in construction order; 0 for none"),
  hop_out = ProtoField.uint16("epic.hop.out", "Interface towards the next hop", base.DEC, nil, nil, "in construction order; 0 for none"),
  hop_ingress = ProtoField.uint16("epic.hop.ingress", "Ingress", base.DEC, nil, nil, "the interface over which the packet comes"),
  hop_egress = ProtoField.uint16("epic.hop.egress", "Egress", base.DEC, nil, nil, "the interface over which the packet leaves"),
  hop_link_tag = ProtoField.bytes("epic.hop.link_tag", "Link tag of the hop before", base.NONE, "segment identifier"),
  hop_field = ProtoField.bytes("epic.hop.field", "Field", base.NONE, "hop validation field"),
  hop_update = ProtoField.bytes("epic.hop.update", "Update", base.NONE, "updated hop validation field, which level 3 puts in the field's place"),

  dest_field = ProtoField.bytes("epic.destination_field", "Destination field", base.NONE, "destination validation field"),
  payload = ProtoField.bytes("epic.payload", "Payload"),
}
epic.fields = fields

local faulty = ProtoExpert.new("epic.faulty", "No packet", expert.group.MALFORMED, expert.severity.ERROR)
epic.experts = { faulty }

-- The number in one, two or four bytes of a Tvb.
local function number(bytes, at, len)
  return bytes(at, len):uint()
end

-- The text of the AS in eight bytes: its isolation domain, and its number in decimal digits or in groups.
local function as_text(bytes, at)
  local domain, high = number(bytes, at, 2), number(bytes, at + 2, 2)
  if high == 0 then
    return string.format("%d-%d", domain, number(bytes, at + 4, 4))
  end
  return string.format("%d-%x:%x:%x", domain, high, number(bytes, at + 4, 2), number(bytes, at + 6, 2))
end

-- The date of a moment in whole seconds, in brackets, or nothing where there is none.
local function date_text(seconds)
  local there, text = pcall(os.date, "!%Y-%m-%d %H:%M:%S", seconds)
  return there and text and string.format(" (%s UTC)", text) or ""
end

-- The date of a timestamp of a packet, eight bytes in microseconds.
local function timestamp_text(bytes, at)
  local high = number(bytes, at, 4)
  if high >= 1000000 then
    return ""
  end
  return date_text(math.floor((high * 4294967296 + number(bytes, at + 4, 4)) / 1000000))
end

-- Whether there are `len` bytes at a place.
local function has(bytes, at, len)
  return at + len <= bytes:len()
end

-- Where segment i begins, from 0.
local function segment_offset(i)
  return FIXED_LEN + SEGMENT_LEN * i
end

-- Where the destination field would begin of a packet of a form with so many segments and hops.
local function hop_offset(form, segments, hops)
  return segment_offset(segments) + (HOP_LEN + form.width) * hops
end

-- How long a header is.
local function header_len(form, segments, hops)
  return hop_offset(form, segments, hops) + (form.level >= 2 and DEST_LEN or 0)
end

-- Whether some segment of the packet passes a test of the place where it begins.
local function any_segment(packet, test)
  for i = 0, number(packet, 6, 1) - 1 do
    if test(segment_offset(i)) then
      return true
    end
  end
  return false
end

-- How many hops the segments tell of.
local function hop_count(packet)
  local hops = 0
  for i = 0, number(packet, 6, 1) - 1 do
    hops = hops + number(packet, segment_offset(i) + 1, 1)
  end
  return hops
end

local function is_miscounted(packet)
  return any_segment(packet, function(at)
    local hops = number(packet, at + 1, 1)
    return hops < LEAST_SEGMENT_HOPS or hops > MOST_SEGMENT_HOPS
  end) or hop_count(packet) > MOST_HOPS
end

-- The length of the header that first byte, segments and hops make.
local function made_header_len(packet)
  return header_len(FORMS[number(packet, 0, 1)], number(packet, 6, 1), hop_count(packet))
end

-- The faults of a layout in their order. A test is asked only where no fault before it applies.
local LAYOUT_FAULTS = {
  { "short", function(packet) return not has(packet, 0, FIXED_LEN) end },
  { "version", function(packet) return not FORMS[number(packet, 0, 1)] end },
  { "flags", function(packet) return number(packet, 1, 1) ~= 0 end },
  { "segment-count", function(packet)
    local segments = number(packet, 6, 1)
    return segments < 1 or segments > MOST_SEGMENTS
  end },
  { "short", function(packet) return not has(packet, 0, segment_offset(number(packet, 6, 1))) end },
  { "reserved", function(packet)
    return any_segment(packet, function(at) return number(packet, at, 1) > 1 or number(packet, at + 2, 2) ~= 0 end)
  end },
  { "hop-count", is_miscounted },
  { "header-length", function(packet)
    local len = made_header_len(packet)
    return number(packet, 2, 2) ~= len or not has(packet, 0, len)
  end },
  { "payload-length", function(packet)
    local len = number(packet, 4, 2)
    return len > MOST_PAYLOAD or made_header_len(packet) + len ~= packet:len()
  end },
  { "current-hop", function(packet) return number(packet, 7, 1) > hop_count(packet) end },
}

-- The first layout fault of the bytes of a packet, or nil.
local function layout_fault(packet)
  for _, row in ipairs(LAYOUT_FAULTS) do
    if row[2](packet) then
      return "layout " .. row[1]
    end
  end
  return nil
end

-- The damage of a capture at a record's bytes, or nil where they begin with a pseudo-header.
local function record_damage(record)
  if record:len() > MOST_RECORD then
    return "record-too-long"
  elseif not has(record, 0, PLACE_LEN) or number(record, 9, 1) ~= 0 then
    return "pseudo-header"
  end
  local kind, interface, host = number(record, 8, 1), number(record, 10, 2), number(record, 12, 4)
  if (kind == 0 and host == 0) or (kind == 1 and interface == 0) then
    return nil
  end
  return "pseudo-header"
end

-- Marks a fault in the tree and in the list of packets.
local function mark(tree, pinfo, fault)
  tree:add(fields.fault, fault):set_generated()
  tree:add_proto_expert_info(faulty, fault)
  pinfo.cols.info = fault
end

-- Where a pseudo-header says that the packet is due.
local function place_text(record)
  if number(record, 8, 1) == 1 then
    return string.format("host %s,%d", as_text(record, 0), number(record, 12, 4))
  end
  return string.format("interface %d of %s", number(record, 10, 2), as_text(record, 0))
end

-- Adds the pseudo-header.
local function add_place(tree, record)
  local place = tree:add(epic, record(0, PLACE_LEN), "Pseudo-header: at " .. place_text(record))
  place:add(fields.place_as, record(0, 8), as_text(record, 0))
  place:add(fields.place_kind, record(8, 1))
  place:add(fields.place_zero, record(9, 1))
  place:add(fields.place_interface, record(10, 2))
  place:add(fields.place_host, record(12, 4))
end

-- Adds the first 40 bytes, which are there.
local function add_fixed(tree, packet)
  local form = FORMS[number(packet, 0, 1)]
  if form then
    tree:add(fields.version, packet(0, 1), form.version)
    tree:add(fields.level, packet(0, 1), form.level)
  end
  tree:add(fields.flags, packet(1, 1))
  tree:add(fields.header_length, packet(2, 2))
  tree:add(fields.payload_length, packet(4, 2))
  tree:add(fields.segments, packet(6, 1))
  tree:add(fields.current_hop, packet(7, 1))
  tree:add(fields.src_as, packet(8, 8), as_text(packet, 8))
  tree:add(fields.dst_as, packet(16, 8), as_text(packet, 16))
  tree:add(fields.src_host, packet(24, 4))
  tree:add(fields.dst_host, packet(28, 4))
  tree:add(fields.timestamp, packet(32, 8)):append_text(timestamp_text(packet, 32))
end

-- What a segment's header at a place says.
local function segment_at(packet, at)
  return { direction = number(packet, at, 1), hops = number(packet, at + 1, 1), timestamp = number(packet, at + 4, 4) }
end

-- Adds the segment headers that are there, and returns what they say.
local function add_segments(tree, packet, count)
  local segments = {}
  for i = 0, count - 1 do
    local at = segment_offset(i)
    if not has(packet, at, SEGMENT_LEN) then
      break
    end
    local segment = segment_at(packet, at)
    segments[#segments + 1] = segment
    local title = string.format("Segment %d: %s, %d hops", i, DIRECTIONS[segment.direction] or "no direction", segment.hops)
    local branch = tree:add(epic, packet(at, SEGMENT_LEN), title)
    branch:add(fields.segment_direction, packet(at, 1))
    branch:add(fields.segment_hops, packet(at + 1, 1))
    branch:add(fields.segment_reserved, packet(at + 2, 2))
    branch:add(fields.segment_timestamp, packet(at + 4, 4)):append_text(date_text(segment.timestamp))
  end
  return segments
end

-- Adds what the direction tells of a hop, the k-th of its segment in travel order, from 0.
local function add_travel(branch, packet, at, segment, k)
  local inn, out = packet(at + 1, 2), packet(at + 3, 2)
  local against = segment.direction == 1
  local ingress, egress = against and out or inn, against and inn or out
  branch:add(fields.hop_position, packet(at, HOP_LEN), against and segment.hops - k or k + 1):set_generated()
  branch:add(fields.hop_ingress, ingress, ingress:uint()):set_generated()
  branch:add(fields.hop_egress, egress, egress:uint()):set_generated()
  branch:append_text(string.format(": in over %d, out over %d", ingress:uint(), egress:uint()))
end

-- Adds hop j, which begins at a place and is the k-th of its segment.
local function add_hop(tree, packet, form, at, segment, j, k)
  local branch = tree:add(epic, packet(at, HOP_LEN + form.width), string.format("Hop %d", j))
  branch:add(fields.hop_index, packet(at, HOP_LEN), j):set_generated()
  if segment.direction <= 1 then
    add_travel(branch, packet, at, segment, k)
  end
  local expiry = number(packet, at, 1)
  branch:add(fields.hop_expiry, packet(at, 1)):append_text(date_text(math.floor(segment.timestamp + (expiry + 1) * 337.5)))
  branch:add(fields.hop_inn, packet(at + 1, 2))
  branch:add(fields.hop_out, packet(at + 3, 2))
  branch:add(fields.hop_link_tag, packet(at + 5, 8))
  local passed = form.level == 3 and j < number(packet, 7, 1)
  branch:add(passed and fields.hop_update or fields.hop_field, packet(at + HOP_LEN, form.width))
end

-- Adds the hops that are there.
local function add_hops(tree, packet, form, segments)
  local j = 0
  for _, segment in ipairs(segments) do
    for k = 0, segment.hops - 1 do
      local at = hop_offset(form, #segments, j)
      if not has(packet, at, HOP_LEN + form.width) then
        return
      end
      add_hop(tree, packet, form, at, segment, j, k)
      j = j + 1
    end
  end
end

-- Adds destination field and payload, where they are there.
local function add_rest(tree, packet, form, segments, hops)
  local dest, payload = hop_offset(form, segments, hops), header_len(form, segments, hops)
  if payload > dest and has(packet, dest, DEST_LEN) then
    tree:add(fields.dest_field, packet(dest, DEST_LEN))
  end
  if has(packet, payload, 1) then
    tree:add(fields.payload, packet(payload))
  end
end

-- Adds the parts of a packet, as far as its bytes tell where they lie.
local function add_parts(tree, packet)
  if not has(packet, 0, FIXED_LEN) then
    return
  end
  add_fixed(tree, packet)
  local form, count = FORMS[number(packet, 0, 1)], number(packet, 6, 1)
  if count < 1 or count > MOST_SEGMENTS then
    return
  end
  local segments = add_segments(tree, packet, count)
  if not form or #segments < count or is_miscounted(packet) then
    return
  end
  add_hops(tree, packet, form, segments)
  add_rest(tree, packet, form, count, hop_count(packet))
end

-- Names the packet in the tree and in the list of packets.
local function name(tree, pinfo, packet, place)
  local form = FORMS[number(packet, 0, 1)]
  local source = string.format("%s,%d", as_text(packet, 8), number(packet, 24, 4))
  local destination = string.format("%s,%d", as_text(packet, 16), number(packet, 28, 4))
  pinfo.cols.src, pinfo.cols.dst = source, destination
  pinfo.cols.info = string.format("level %d, hop %d of %d, at %s", form.level, number(packet, 7, 1), hop_count(packet), place)
  tree:append_text(string.format(", version %d, level %d, from %s to %s", form.version, form.level, source, destination))
end

-- Adds the packet of a record, or marks its fault.
local function add_packet(tree, pinfo, packet, place)
  local fault = layout_fault(packet)
  if fault then
    mark(tree, pinfo, fault)
  else
    name(tree, pinfo, packet, place)
  end
  add_parts(tree, packet)
end

-- Shows one record of a capture.
function epic.dissector(record, pinfo, root)
  pinfo.cols.protocol = "EPIC"
  local tree = root:add(epic, record)
  if has(record, 0, PLACE_LEN) then
    add_place(tree, record)
  end
  local damage = record_damage(record)
  if damage then
    mark(tree, pinfo, damage)
  elseif has(record, PLACE_LEN, 1) then
    add_packet(tree, pinfo, record(PLACE_LEN):tvb(), place_text(record))
  else
    mark(tree, pinfo, "layout short")
  end
  return record:len()
end

DissectorTable.get("wtap_encap"):add(wtap.USER0, epic)
