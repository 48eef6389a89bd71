-- The order desk of desk.c in LuaJIT, whose module ffi calls C: reads the rules of examples/orders, and answers a few
-- orders. Usage: luajit desk.lua RULES [LIBRARY]
local ffi = require("ffi")

ffi.cdef [[
typedef struct { void *at; } hipac_base;
int32_t hipac_open(const char *script, size_t script_length, uint32_t options, hipac_base *base,
                   const uint8_t **answer, size_t *length);
int32_t hipac_line(hipac_base *base, const char *line, size_t line_length, const uint8_t **answer, size_t *length);
int32_t hipac_show(hipac_base *base, const uint8_t **answer, size_t *length);
void hipac_close(hipac_base *base);
]]
local OK, REFUSED, TEXT = 0, 1, 2

if not arg[1] then
  io.stderr:write("usage: luajit desk.lua RULES [LIBRARY]\n")
  os.exit(2)
end
local hipac = ffi.load(arg[2] or "hipac")
local base, answer, length = ffi.new("hipac_base[1]"), ffi.new("const uint8_t *[1]"), ffi.new("size_t[1]")

-- Writes an answer. It belongs to the base until the next call, so Lua takes a copy.
local function put(status)
  assert(status == OK or status == REFUSED, "desk: status " .. status)
  io.write(ffi.string(answer[0], length[0]))
end

local function ask(line)
  io.write("> ", line, "\n")
  put(hipac.hipac_line(base, line, #line, answer, length))
end

local rules = assert(io.open(arg[1], "rb"))
local script = rules:read("*a")
rules:close()
put(hipac.hipac_open(script, #script, TEXT, base, answer, length))
ask('transaction { create product(7) set name = "desk lamp", stock = 5, low = 2, awaited = false }')
for number = 1, 3 do
  local row = 'product = 7, count = 2, state = "open", reminded = false'
  ask("transaction { create order(" .. number .. ") set " .. row .. " }")
end
ask('transaction { update order(1) set state = "shipped" }')
ask('transaction { update order(1) set state = "paid" }')
io.write("> show\n")
put(hipac.hipac_show(base, answer, length))
hipac.hipac_close(base)
